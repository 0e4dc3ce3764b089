"""What the test scripts share: arguments, selection of cases by name, comparisons, the last line, records and chunks."""
import argparse
import os
import socket
import sys

TOP = os.path.dirname(os.path.dirname(os.path.abspath(__file__)))
# The smallest event, as a record of 23 bytes.
BEAT = '20\n{"type":"HEARTBEAT"}'
# The help text of each argument and option that a script can have.
HELP = {
    "program": "the built command, such as $(tools/built checked)",
    "cache": "the folder for the archive of the fresh Debian",
    "sample": "tries only every N-th list",
    "random": "the number of random lists",
    "seconds": "the time after which no new case starts",
    "seed": "the seed of the random inputs",
    "together": "the number of cases that run at once",
    "runs": "the number of runs, one for each seed",
    "first": "the first seed",
    "long": "the seconds of one long run, in place of those of the seeds",
}
END = """The last line is 'N passed, M failed'. The status is 0 if no case failed, 1 if a case failed or no
case has WORD in its name, and 2 for a usage error.

Example: """


def parser(doc, example, *names, **options):
    """Returns a parser of the positional arguments `names`, of `options` with their default values, and of -k."""
    made = argparse.ArgumentParser(
        description=doc, epilog=END + example, formatter_class=argparse.RawDescriptionHelpFormatter
    )
    for name in names:
        made.add_argument(name, help=HELP[name])
    for name, default in options.items():
        mark = "DIR" if isinstance(default, str) else "N"
        help_text = f"{HELP[name]} (default: {default})"
        made.add_argument(f"--{name}", type=type(default), default=default, metavar=mark, help=help_text)
    made.add_argument("-k", dest="word", metavar="WORD", default="", help="runs only the cases that have WORD in their name")
    return made


class Cases:
    """Counts the cases that pass and fail, and selects those that have a word in their name."""

    def __init__(self, word=""):
        self.word, self.passed, self.failed, self.skipped = word, 0, 0, 0

    def is_chosen(self, name):
        return self.word in name

    def run_chosen(self, *functions, arguments=(), errors=()):
        """Calls the functions that have the word in their name, with `_` replaced by a blank. A function that
        raises one of `errors` is counted as failed."""
        for function in functions:
            name = function.__name__.replace("_", " ")
            try:
                if self.is_chosen(name):
                    function(*arguments)
            except errors as error:
                self.count(name, False, f": it was stopped by {error!r}")

    def count(self, name, is_good, why):
        """Counts a case. If it failed, prints its name and why."""
        self.passed, self.failed = self.passed + bool(is_good), self.failed + (not is_good)
        if not is_good:
            print(f"failed: {name}{why}")

    def expect(self, name, expected, got, given=None):
        """Counts a case that passes if `got` is `expected`. `given` is its input, if the name does not show it."""
        row = {"input": given, "expected": expected, "got": got}
        shown = [f"\n  {key + ':':9} {shortened(it)}" for key, it in row.items() if key != "input" or given is not None]
        self.count(name, expected == got, "".join(shown))

    def expect_of(self, name, expected, function, *arguments, given=None):
        """Like `expect`, for the result of a call, which is made only if the case is selected."""
        if self.is_chosen(name):
            self.expect(name, expected, function(*arguments), given)

    def skip(self, name, why):
        self.skipped += 1
        print(f"skipped: {name}: {why}")

    def end(self):
        """Prints the last line, and returns the exit status."""
        print(f"{self.passed} passed, {self.failed} failed")
        is_empty = self.word and not (self.passed or self.failed or self.skipped)
        if is_empty:
            print(f"no case has {self.word!r} in its name", file=sys.stderr)
        return 1 if self.failed or is_empty else 0


def shortened(value, limit=4000):
    """Returns a value as it is printed; of more than `limit` characters only the first and the last."""
    text = repr(value)
    return text if len(text) <= limit else f"{text[: limit // 2]} .. {text[-limit // 2 :]}"


def record(text):
    """Returns a text, or bytes, as a record of RecordIO."""
    return f"{len(text)}\n{text}" if isinstance(text, str) else b"%d\n%s" % (len(text), text)


def chunked(body, size):
    """Returns an ASCII text, or bytes, as a chunked body of chunks of at most `size` bytes."""
    if isinstance(body, str):
        return chunked(body.encode("ascii"), size).decode("ascii")
    pieces = [body[at : at + size] for at in range(0, len(body), size)]
    return b"".join(b"%x\r\n%s\r\n" % (len(it), it) for it in pieces) + b"0\r\n\r\n"


def free_port():
    """Returns a port of 127.0.0.1 on which no process listens."""
    with socket.socket() as it:
        it.bind(("127.0.0.1", 0))
        return it.getsockname()[1]


def read_all(client):
    """Reads from a socket until its other end closes or resets the connection, and returns the bytes."""
    received = b""
    try:
        while more := client.recv(65536):
            received += more
    except ConnectionResetError:
        pass
    return received
