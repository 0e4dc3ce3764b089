"""Finds the shape of what the program prints for an input, and the manner in which a property fails.

Inputs of one shape are alike, so the corpus keeps one of them. A shrunk input must fail in the same
manner as the input that it was made from.
"""
import hashlib
import re
import signal

import inputs
from runs import Beside, Difference, Program, Ran, last_line
from serving import SERVED

KNOWN = {name.split()[1].encode() for name in inputs.TABLES if " " in name} | {b"HEARTBEAT", b"REVIVE", b"SUPPRESS", b"TEARDOWN"}
# The types of the messages in the lines of `show`, in JSON Lines, in records and in logs.
TYPE = re.compile(rb'^(?:\d+ |[EC]?\{"type":")([A-Za-z_]*)', re.MULTILINE)
# The lines that end an output, and those of the report of `replay`, which are cut off before their texts.
LINE = re.compile(rb"^(?:(?:events|calls|fault|refused|net|encode|entries|error:) .*|framework -|hand|owed)", re.MULTILINE)
FIRST = re.compile(rb"(?:fault|refused) ([A-Z]\d+) ")
NUMBER = re.compile(rb"\b\d+\b")
# The noun of a line; of a fault and a refusal also the number and the name.
LEAD = re.compile(rb"(?:fault|refused) \S+ \S+|[a-z]+")
BYTES = re.compile(r"""b'(?:[^'\\]|\\.)*'|b"(?:[^"\\]|\\.)*\"""")


# ---- traps


class Trap(Difference):
    """A run that was ended by a failed check of the checked build, or by a signal."""

    def __init__(self, name, words):
        super().__init__(f"trap {name} of {words}", what=f"trap {name} of {words[:2]}")


def trap_name(status):
    """Returns the name of a trap, or None. SIGKILL is none: it ends a hang, or comes from outside."""
    if status == 132:
        return "status 132"
    if status >= 0 or status == -signal.SIGKILL:
        return None
    return next((it.name for it in signal.Signals if it == -status), f"signal {-status}")


class Guarded(Program):
    """The built program, with traps by their names. A signal of the terminal does not reach it."""

    is_apart = True

    def end(self, running, feed=lambda: None):
        try:
            return super().end(running, feed)
        finally:
            # After a trap the program sends nothing, which would be reported as a hang or as other bytes.
            name = trap_name(running.returncode)
            if name:
                raise Trap(name, running.args)


class Watched(Guarded):
    """The built program. `runs` has the arguments and the outcome of each run."""

    def __init__(self, *paths):
        super().__init__(*paths)
        self.runs = []

    def end(self, running, feed=lambda: None):
        ran = super().end(running, feed)
        self.runs.append((running.args[1:], ran))
        return ran


class WatchedBeside(Beside, Watched):
    """The built program, and another one that must have the same outputs and status."""

    alone = Guarded


# ---- shapes


def with_digits(line):
    """Returns a line with the number of its digits for each number."""
    return NUMBER.sub(lambda number: b"#%d" % len(number[0]), line)


def outcome(ran):
    """Returns the status, the types of messages, and the lines of a run, without what differs between like inputs."""
    types = {name if name in KNOWN else b"OTHER" for name in TYPE.findall(ran.out)}
    lines = {with_digits(line[:200]) for out in (ran.out, ran.err) for line in LINE.findall(out)}
    return b" ".join([b"%d" % ran.status, *sorted(types), *sorted(lines)])


def shape_of(name, kind, outcomes):
    """Returns the number of the first fault or refusal, and a hash. Equal outcomes of several runs count once."""
    whole = b"\n".join([name.encode(), kind.encode(), *dict.fromkeys(outcomes)])
    found = FIRST.search(whole)
    return f"{found[1].decode() if found else 'none'}-{hashlib.sha256(whole).hexdigest()[:20]}"


def shapes_of(name, given, runs):
    """Yields pairs of a shape and the bytes that have it. Each of several requests has its own shape."""
    if given.kind != "request":
        yield shape_of(name, given.kind, [outcome(ran) for _, ran in runs]), given.data
        return
    lines = [line for args, ran in runs if args[0] == "serve" for line in SERVED.finditer(ran.out)]
    # A valid request comes first, and then each request twice. The second time it may be cut off: its line then
    # depends on time, and so the inputs after it would. After a TEARDOWN each valid request has the status 403.
    for (data, _), line in zip(given.data, lines[1::2]):
        if line[1] != b"403":
            yield shape_of(name, given.kind, [line[1], line[2]]), data


# ---- the manner of a failure


def without_values(text):
    return re.sub(r"\d+", "N", BYTES.sub("BYTES", text))


def manner_of_value(value):
    if isinstance(value, Ran):
        return value.status, manner_of_value(value.out), manner_of_value(value.err)
    found = LEAD.match(last_line(value)) if isinstance(value, bytes) else None
    return found[0] if found else type(value).__name__


def manner_of(failure):
    """Returns what two failures have in common if they fail in the same manner."""
    if not isinstance(failure, Difference):
        return type(failure).__name__, without_values(str(failure))
    return type(failure).__name__, without_values(failure.what), *map(manner_of_value, failure.values)
