#!/usr/bin/env python3
"""Runs the built command on random inputs, valid and invalid, and checks properties that hold for every input.

The same seed gives the same inputs in the same order. The properties are:

  plain against chunked  a stream, and the same bytes in a chunked body with cuts and damage
  lines against records  JSON Lines, and their records as model.py finds them, as plain RecordIO
  whole against pieces   an input as a file, and through a pipe in pieces of 1, 7 and 511 bytes
  show against check     equal last lines and statuses; each event line has its form; a valid
                         stream has all its events
  convert twice          the output of convert has the same events, and is its own conversion,
                         plain and in chunks
  JSON Lines             show --json and convert --json write the texts of convert, each a JSON
                         text, and the line that show or convert ends with; convert --lines reads
                         them again; the lines of calls are those of model.py
  relog twice            the same for relog; a log and its relog are replayed to the same lines
  requests               serve responds or closes, prints a line per connection, and goes on
  responses              subscribe rejects the same heads as heads.py, and prints the same
                         events as show
  arguments              valid and invalid arguments with any input

In each run the status is 0, 1 or 2, standard error is as in docs/FORMAT.md, and the run ends
within 60 seconds.

With --hours N the script runs for N hours. A third of its inputs are generated, as without
--hours. The others are made by changes of the inputs of a corpus: a folder with the shortest
input for each shape of outcome that was seen, in this run or before. A shape is a property with
the statuses, faults, refusals and types of messages that the program printed; of a number it has
the count of digits. An input that fails is shrunk: pieces are removed as long as the same property
fails in the same manner. Requests and responses get about 4 percent of the time. Each minute the
counts are printed on standard error. SIGINT ends the run after the current case. The same seed and
the same corpus give the same inputs in the same order. For example, for a night:

  tests/fuzz/run.py $(tools/built checked) --hours 8 --corpus /tmp/corpus

The script ends at the first failed case. It prints the property, the seed, the number and the
input, and stores the input in a new temporary folder. The inputs in the folder seen next to this
script are tried first; its README.md describes their names. A case is an input. For -k WORD, the
name is that of the property.
"""
import argparse
import itertools
import json
import math
import os
import random
import re
import sys
import tempfile
import time
from collections import Counter

sys.dont_write_bytecode = True
sys.path.insert(0, os.path.dirname(os.path.dirname(os.path.abspath(__file__))))
import corpus
import heads
import hours
import inputs
import model
import shapes
from runs import CALL, EVENT, OFFER, Beside, Difference, Program, Ran, expect, last_line
from serving import serve_requests
from support import Cases, parser

SEEN = os.path.join(os.path.dirname(os.path.abspath(__file__)), "seen")


# ---- the properties


# The kinds of inputs whose records are events, and those whose records are calls.
EVENT_KINDS, CALL_KINDS = ["stream", "chunked", "lines"], ["calls", "chunked_calls", "call_lines"]


def limits(pick):
    return ["--limit", str(pick.choice([1, 20, 60, 100, 200, 400, 4194304, 67108864]))] if pick.random() < 0.25 else []


def framing(given):
    """Returns the options for an input of this kind."""
    options = {"--chunked": ["chunked", "chunked_calls"], "--lines": ["lines", "call_lines"], "--calls": CALL_KINDS}
    return [option for option, kinds in options.items() if given.kind in kinds]


def message_options(given):
    """Like `framing`, for the same messages in plain RecordIO."""
    return ["--calls"] if given.kind in CALL_KINDS else []


def plain_against_chunked(program, pick, given):
    """Checks that the bytes before a fault of the chunks have the same fault as in a plain stream, or that one."""
    parts, args = inputs.in_chunks(pick, given.data), [pick.choice(["check", "show"]), *message_options(given), *limits(pick)]
    body, fault, last, count = inputs.ended(pick, parts)
    plain = program.run(args, given.data[:count])
    text, used = last_line(plain.out).rsplit(b" ", 1)
    if plain.status == 0 or text.startswith(b"fault F10 "):
        # The end of the plain bytes: in the body its last byte, or the fault of its chunks.
        line = b"%s %d\n" % (text, last) if fault is None else f"fault {fault} after {last}\n".encode()
    else:
        expect(f"{args}: {text!r} is after a byte of the stream", True, 0 < int(used) <= count)
        line = b"%s %d\n" % (text, inputs.places_of(parts)[int(used) - 1])
    expected = Ran(plain.out[: -len(last_line(plain.out))] + line, b"", 1 if fault else plain.status)
    expect(f"{args} --chunked of {body!r}", expected, program.run([*args, "--chunked"], body))


def lines_against_records(program, pick, given):
    """Compares JSON Lines with their records in plain RecordIO. The bytes used and the line are those of the model."""
    # Often the limit is about the size of a line, or of what is before a CR.
    sizes = [size for line in given.data.split(b"\n") for size in (len(line), line.find(b"\r")) if size > 0]
    limit = ["--limit", str(max(1, pick.choice(sizes) - pick.randrange(3)))] if sizes and pick.random() < 0.4 else limits(pick)
    args = [pick.choice(["check", "show", "convert"]), *message_options(given), *limit]
    records, too_long = model.records_of_lines(given.data, int(limit[1]) if limit else 4194304)
    plain = program.run(args, b"".join(b"%d\n%s" % (len(text), text) for text, _, _ in records))
    is_convert = args[0] == "convert"
    end, shown, status = plain.err if is_convert else last_line(plain.out), plain.out, plain.status
    shown = shown if is_convert else shown[: len(shown) - len(end)]
    number = re.search(rb" record (\d+) ", end)
    if number:
        _, used, line = records[int(number[1]) - 1]
        end = b"%s %d%s\n" % (end.rsplit(b" ", 1)[0], used, b"" if line == int(number[1]) else b" line %d" % line)
    elif too_long:
        end, shown, status = b"fault F9 RecordTooLarge after %d\n" % too_long, b"" if is_convert else shown, 1
    elif not is_convert:
        end = b"%s %d\n" % (end.rsplit(b" ", 1)[0], len(given.data))
    expected = Ran(shown, end, status) if is_convert else Ran(shown + end, b"", status)
    expect(f"{args} --lines", expected, program.run([*args, "--lines"], given.data))


def whole_against_pieces(program, pick, given):
    args = [pick.choice(["replay", "relog"] if given.kind == "log" else ["check", "show", "convert"]), *framing(given), *limits(pick)]
    args += ["--most", str(pick.choice([1, 7, 4096]))] if args[0] == "convert" and pick.random() < 0.3 else []
    whole = program.run(args, given.data)
    for piece in (1, 7, 511):
        expect(f"{args} in pieces of {piece}", whole, program.run(args, given.data, piece))


def count_shown(out, message=EVENT):
    """Returns the number of events, or of calls if `message` is their form, that `show` has printed. Checks the form of
    their lines."""
    number = offers = 0
    for line in out.splitlines(keepends=True)[:-1]:
        number += 0 if offers else 1
        found = OFFER.fullmatch(line) if offers else message.fullmatch(line) if line.startswith(b"%d " % number) else None
        if not found:
            raise Difference(f"the line {line!r} of {out!r}")
        offers = offers - 1 if offers else int(found[1] or 0) if message is EVENT else 0
    expect("missing lines of offers", 0, offers)
    return number


def show_against_check(program, pick, given):
    args = framing(given) + limits(pick)
    shown, checked = program.run(["show", *args], given.data), program.run(["check", *args], given.data)
    expect(f"the last line of show and check {args}", checked, Ran(last_line(shown.out), b"", shown.status))
    count = count_shown(shown.out, CALL if "--calls" in args else EVENT)
    found = re.match(rb"(?:events|calls) (\d+) |fault F1[12] \w+ record (\d+) ", checked.out)
    if found:
        expect(f"the number of messages of show {args}", int(found[1] or int(found[2]) - 1), count)
    if given.count is not None and "--limit" not in args:
        noun = b"calls" if "--calls" in args else b"events"
        expect("the line of a valid stream", b"%s %d bytes %d\n" % (noun, given.count, len(given.data)), checked.out)


def convert_twice(program, pick, given):
    args, limit, plain = framing(given), limits(pick), message_options(given)
    shown, first = program.run(["show", *args, *limit], given.data), program.run(["convert", *args, *limit], given.data)
    if shown.status or first.err.startswith(b"fault"):
        expect("the fault of convert", last_line(shown.out), first.err)
    if first.status:
        return
    again = program.run(["show", *plain, *limit], first.out)
    noun, count = last_line(shown.out).split(b" ")[:2]
    expect("show of the output of convert", shown.out[: -len(last_line(shown.out))] + b"%s %s bytes %d\n" % (noun, count, len(first.out)), again.out)
    expect("convert of the output of convert", first, program.run(["convert", *plain, *limit], first.out))
    most = ["--most", str(pick.choice([1, 2, 7, 100, 511, 512, 4096, 16777216]))]
    body = program.run(["convert", *args, *limit, *most], given.data)
    expect(f"convert of the output of convert {most}", first, program.run(["convert", "--chunked", *plain, *limit], body.out))


def records_of(body):
    """Yields the records of plain RecordIO."""
    while body:
        size, body = body.split(b"\n", 1)
        yield body[: int(size)]
        body = body[int(size) :]


def json_lines(program, pick, given):
    args = framing(given) + limits(pick)
    shown, lines = program.run(["show", *args], given.data), program.run(["show", "--json", *args], given.data)
    first, whole = program.run(["convert", *args], given.data), program.run(["convert", "--json", *args], given.data)
    events = lines.out.splitlines(keepends=True)
    for line in events:
        json.loads(line)
    if first.status == 0:
        expect("the lines of show --json", list(records_of(first.out)), [line[:-1] for line in events])
        expect("the output of convert --json", Ran(lines.out, b"", 0), whole)
        expect("convert --lines of the output of show --json", first, program.run(["convert", "--lines", *message_options(given)], lines.out))
    else:
        expect("the error of convert --json", first, whole)
    if lines.err.startswith(b"encode failed"):
        expect("the events before one without canonical text", int(lines.err.split()[3]) - 1, len(events))
    else:
        expect("the last line of show --json", Ran(last_line(shown.out), b"", shown.status), Ran(lines.err, b"", lines.status))
        expect("the number of lines of show --json", count_shown(shown.out, CALL if "--calls" in args else EVENT), len(events))
    if "--calls" in args:
        expected = [model.shown_call(number, json.loads(line)) for number, line in enumerate(events, 1)]
        expect("the lines of show --calls", expected, shown.out.splitlines(keepends=True)[: len(events)])


def relog_twice(program, pick, given):
    limit = limits(pick)
    replayed, first = program.run(["replay", *limit], given.data), program.run(["relog", *limit], given.data)
    if replayed.out.startswith(b"fault") or first.err.startswith(b"fault"):
        expect("the fault of relog", replayed.out, first.err)
    if first.status:
        return
    expect("the header of the output of relog", b"1\n2", first.out[:3])
    expect("relog of the output of relog", first, program.run(["relog", *limit], first.out))
    expect("replay of the output of relog", replayed, program.run(["replay", *limit], first.out))
    if replayed.status == 0 and given.count is not None:
        expect("the number of entries of a valid log", b"entries %d\n" % given.count, replayed.out.splitlines(keepends=True)[0])


def responses(program, pick, given):
    """Checks that a response is rejected by its head, or that its body is printed as by `show`."""
    refusal, size = heads.refusal(given.data)
    piece = pick.choice([len(given.data), len(given.data), 511, 40]) + len(given.data) // 500 + 1
    ran = program.subscribe(given.data, piece)
    if refusal:
        expect("subscribe with such a head", Ran(f"refused {refusal}\n".encode(), b"", 1), ran)
    else:
        expect("subscribe with such a body", program.run(["show", "--chunked"], given.data[size:]), ran)


OPTIONS = {"check": "lca", "show": "lca", "convert": "lcam", "replay": "l", "relog": "l", "loopback": "m"}
BAD_ARGUMENTS = [
    ["--limit", "0"], ["--limit", "67108865"], ["--limit=x"], ["--limit"], ["--limit", "-1"], ["--most", "0"], ["--most=16777217"], ["--chunked=1"],
    ["--chunked", "--chunked"], ["--port", "1"], ["-x"], ["x"], [""], [b"\xff"],
]


def arguments(program, pick, given):
    """Runs any command on any kind of input. Faults of the input of `loopback` must be those of `check`."""
    command = pick.choice(list(OPTIONS))
    args = [command, *(limits(pick) if "l" in OPTIONS[command] else [])]
    args += [pick.choice(["--chunked", "--lines"])] if "c" in OPTIONS[command] and pick.random() < 0.4 else []
    args += ["--calls"] if "a" in OPTIONS[command] and pick.random() < 0.2 else []
    args += [f"--most={pick.choice([1, 3, 64, 16777216])}"] if "m" in OPTIONS[command] and pick.random() < 0.5 else []
    bad = pick.random() < 0.2
    ran = program.run(args + (pick.choice(BAD_ARGUMENTS) if bad else []), given.data, bad=bad)
    if command == "loopback" and not bad:
        checked = program.run(["check"], given.data)
        if checked.status:
            expect("the fault of loopback", checked, ran)
        elif ran.status == 0:
            count_shown(ran.out)
        else:
            expect("loopback of valid events", b"net write failed\n", ran.out)

# ---- the cases

# The function of each property, the kinds of its inputs, and the number of its cases in a round, with which the
# properties take about equal times.
PROPERTIES = {
    "plain against chunked": (plain_against_chunked, ["stream", "stream", "calls"], 6),
    "lines against records": (lines_against_records, ["lines", "lines", "call_lines"], 6),
    "whole against pieces": (whole_against_pieces, EVENT_KINDS + ["lines", "call_lines", "log"], 3),
    "show against check": (show_against_check, 2 * EVENT_KINDS + CALL_KINDS, 6),
    "convert twice": (convert_twice, 2 * EVENT_KINDS + CALL_KINDS, 4),
    "JSON Lines": (json_lines, 2 * EVENT_KINDS + CALL_KINDS, 4),
    "relog twice": (relog_twice, ["log"], 4),
    "requests": (serve_requests, ["request"], 1),
    "responses": (responses, ["response"], 6),
    "arguments": (arguments, EVENT_KINDS + ["calls", "call_lines", "log"], 10),
}
ROUND = [name for name, (_, _, share) in PROPERTIES.items() for _ in range(share)]


def kept_as(name, kind, known, label):
    """Returns the file name of an input that failed. `known` is the number or type of a valid input, else None."""
    return f"{name.replace(' ', '-')}.{kind}{'' if known is None else f'-{known}'}.{label}"


def kept_in(file):
    """Reads the file of this name. Returns its property, its input and its label."""
    name, kind, label = file.split(".", 2)
    kind, _, known = kind.partition("-")
    with open(os.path.join(SEEN, file), "rb") as seen:
        data = seen.read()
    if kind == "request":
        return name.replace("-", " "), inputs.Input(kind, [(data, known or None)], None), label
    return name.replace("-", " "), inputs.Input(kind, data, int(known) if known else None), label


def shown_by(given, request):
    """Returns the bytes that show a difference, with the number or type of a valid input: `request`, all requests if it
    is None, or the single input."""
    if given.kind != "request":
        return [(given.data, given.count)]
    known = dict([*given.data, (inputs.GOOD_REQUEST, "SUBSCRIBE")])
    return [(data, known.get(data)) for data in ([request] if request is not None else known)]


class Fuzz(Cases):
    """Runs the cases, and counts the inputs that pass and fail for each property."""

    def __init__(self, args):
        super().__init__(args.word)
        alone, both = (Program, Beside) if args.hours is None else (shapes.Watched, shapes.WatchedBeside)
        self.program = both(args.program, args.beside) if args.beside else alone(args.program)
        self.args = args
        self.corpus = None if args.hours is None else corpus.Corpus(args.corpus or corpus.default_folder())
        self.good, self.bad = Counter(), Counter()

    def try_one(self, name, draw, given, where):
        """Tries an input. Returns the bytes that show a difference, or an empty list. `draw` seeds the choices of the property."""
        size = len(given.data) if given.kind == "request" else 1
        self.good[name] += size
        try:
            PROPERTIES[name][0](self.program, random.Random(draw), given)
        except Exception as difference:  # An unexpected exception is a difference too.
            self.good[name] -= 1
            self.show_failure(name, where, difference)
            return shown_by(given, getattr(difference, "data", None))
        return []

    def show_failure(self, name, where, failure):
        self.bad[name] += 1
        print(f"failed: {name}, {where}: {failure if isinstance(failure, Difference) else repr(failure)}"[:4000], flush=True)

    def try_seen(self):
        """Tries each file of the folder seen, with the choices of its failure and with a few others."""
        for file in sorted(it for it in os.listdir(SEEN) if it != "README.md"):
            name, given, label = kept_in(file)
            names = dict.fromkeys([name, *(it for it in PROPERTIES if given.kind in PROPERTIES[it][1])])
            draws = [label, *(f"{label} {number}" for number in range(5))]
            for name, draw in itertools.product(filter(self.is_chosen, names), draws):
                self.try_one(name, draw, given, file)
                if self.bad:
                    return

    def made(self, case):
        """Returns the property, the label and the input of the case of this number, or None if the property is not
        selected. Only the seed and the number determine them."""
        name, label = ROUND[case % len(ROUND)], f"{self.args.seed}-{case}"
        if not self.is_chosen(name):
            return None
        pick = random.Random(f"input {label}")
        return name, label, inputs.MAKERS[pick.choice(PROPERTIES[name][1])](pick)

    def try_case(self, case):
        made = self.made(case)
        if made:
            name, label, given = made
            self.keep_all(name, label, given.kind, self.try_one(name, label, given, f"seed {self.args.seed} case {case}"))

    def keep_all(self, name, label, kind, shown):
        for number, (data, known) in enumerate(shown):
            self.keep(kept_as(name, kind, known, f"{label}-{number}" if number else label), data)

    def report(self, name, label, given, where, failure):
        """Counts, prints and stores the shrunk input of a case that failed."""
        self.show_failure(name, where, failure)
        # All requests that are left are needed, also if only one shows the difference.
        self.keep_all(name, label, given.kind, given.data if given.kind == "request" else shown_by(given, None))

    def keep(self, name, data):
        """Prints the input of a case that failed, and writes it to files."""
        print(f"  input:    {data!r}"[:4000], flush=True)
        for folder in [tempfile.mkdtemp(prefix="mesosev-fuzz-"), *([SEEN] if self.args.keep else [])]:
            path = os.path.join(folder, name)
            with open(path, "wb") as file:
                file.write(data)
            print(f"  stored as {path}", flush=True)

    def run(self):
        if self.args.case is not None:
            self.try_case(self.args.case)
            return
        if self.corpus:
            hours.Hours(self, PROPERTIES, self.corpus).run(3600 * self.args.hours)
            return
        self.try_seen()
        until = time.monotonic() + self.args.seconds
        for case in itertools.count():
            if time.monotonic() >= until or self.bad:
                return
            self.try_case(case)


def number_of_hours(text):
    """Returns the value of --hours."""
    value = float(text)
    if not 0 < value < math.inf:
        raise argparse.ArgumentTypeError(f"no time: {text!r}")
    return value


def main():
    made = parser(__doc__, "tests/fuzz/run.py $(tools/built checked) --seconds 10 -k relog", "program", seconds=60.0, seed=1)
    made.add_argument("--beside", metavar="OTHER", help="a second program, which must have the same outputs and statuses (except serve)")
    made.add_argument("--case", type=int, metavar="N", help="tries only the case of this number")
    made.add_argument("--keep", action="store_true", help="also stores an input that fails in the folder seen")
    made.add_argument("--hours", type=number_of_hours, metavar="N", help="runs for N hours, such as 0.01, in place of --seconds, with a corpus")
    made.add_argument("--corpus", metavar="DIR", help="the folder of the corpus of --hours (default: mesosev-fuzz in $XDG_CACHE_HOME or ~/.cache)")
    args = made.parse_args()
    if args.hours is None and args.corpus is not None or args.hours is not None and args.case is not None:
        made.error("--corpus needs --hours" if args.hours is None else "--case cannot be used with --hours")
    try:
        fuzz = Fuzz(args)
    except OSError as error:
        made.error(str(error))
    fuzz.run()
    for name in PROPERTIES:
        print(f"{name}: {fuzz.good[name]} passed, {fuzz.bad[name]} failed")
    fuzz.passed, fuzz.failed = fuzz.good.total(), fuzz.bad.total()
    return fuzz.end()


if __name__ == "__main__":
    sys.exit(main())
