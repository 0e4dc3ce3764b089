"""Runs the built command for tests/fuzz, and checks that each run ends in a documented form."""
import os
import re
import signal
import socket
import subprocess
import sys
import tempfile
from collections import namedtuple

sys.path.insert(0, os.path.dirname(os.path.dirname(os.path.abspath(__file__))))
import inputs

# The time limit of a run, in seconds. Other tests run at the same time.
LIMIT = 60
Ran = namedtuple("Ran", "out err status")
# The request of `subscribe` to a host.
SUBSCRIBE_REQUEST = (
    b"POST /api/v1/scheduler HTTP/1.1\r\nHost: %s\r\nContent-Type: application/json\r\nAccept: application/json\r\nConnection: close\r\n"
    b'Content-Length: 75\r\n\r\n{"type":"SUBSCRIBE","subscribe":{"framework_info":{"user":"u","name":"n"}}}'
)


class Difference(Exception):
    """A property that does not hold. Of several inputs, `data` is the one that shows it.

    `what` and `values` say in which way: what was compared, and the values that differ.
    """

    def __init__(self, why, data=None, what=None, values=()):
        super().__init__(why)
        self.data, self.what, self.values = data, why if what is None else what, values


class Hang(Difference):
    """A run that did not end within the time limit."""


def expect(what, expected, got, data=None):
    if expected != got:
        raise Difference(f"{what}\n  expected: {expected!r}\n  got:      {got!r}", data, what, (expected, got))


def form(pattern):
    """Returns the pattern for lines of this form, in which N is a number, TEXT a JSON string and UUID a uuid."""
    text = r'"(?:[^"\\\x00-\x1f]|\\["\\bfnrt]|\\u00[01][0-9a-f])*"'
    uuid = r"(?:[0-9a-f]{8}(?:-[0-9a-f]{4}){3}-[0-9a-f]{12}|hex:(?:[0-9a-f]{2})*)"
    return re.compile(re.sub(r"\bN\b", "(?:0|[1-9][0-9]*)", pattern).replace("TEXT", text).replace("UUID", uuid).encode())


# F13 to F15 and S8 are missing: devices and allocations do not fail here.
FAULT = (
    "fault (?:" + "|".join(inputs.CHUNK_FAULTS) + "|F7 BadSizeLine|F8 SizeLineTooLong|F9 RecordTooLarge|F10 EndsInsideRecord"
    r"|F11 Text record N byte N (?:End|Depth|Byte)|F12 Field record N (?:\.|[a-z_][a-z_.0-9\[\]]*)"
    r" (?:Missing|Twice|WrongKind|UnknownName|BadBase64|NumberRange|LeftOut)|F16 BadEntry record N) after N(?: line N)?\n"
)
REFUSED = (
    r"refused (?:(?:S1 NotSubscribed|S2 NamedTwice|S4 TwoAgents|S7 NotOwed) record N|S3 NoSuchOffer record N index N"
    r"|S5 WrongAgent record N task N|S6 Exceeds record N task N resource N)\n"
)
# H1 is a fault of devices too.
HEADS = r"refused (?:H2 HeadTooLong|H3 BadHead|H4 Status N|H5 NotChunked|H6 NotJson|H7 NoStreamId)\n"
# The last line of output with status 0 and with status 1, a report, the lines of convert and relog on standard
# error, and a usage error.
GOOD_END, BAD_END = form(r"(?:events|calls) N bytes N\n"), form(FAULT + "|" + REFUSED + "|" + HEADS + r"|net write failed\n")
REPORT = form(r"entries N\nframework (?:-|TEXT)\n(?:hand TEXT\n)*(?:owed TEXT TEXT UUID\n)*")
JSON_ENDS = GOOD_END, form(FAULT + r"|encode failed (?:event|call) N (?:TooDeep|TooLarge)\n")
ERROR_LINE, USAGE_ERROR = form(FAULT + r"|encode failed (?:event|call) N (?:TooDeep|TooLarge)\n"), re.compile(rb"error: .+\n", re.DOTALL)
EVENT = form(
    r"N (?:SUBSCRIBED TEXT (?:-|N\.[0-9]{1,6})|OFFERS (N)|RESCIND TEXT|UPDATE TEXT TASK_[A-Z_]+ (?:-|UUID)|MESSAGE TEXT TEXT N"
    r"|FAILURE (?:-|TEXT) (?:-|TEXT) (?:-|-?N)|ERROR TEXT|HEARTBEAT|OTHER TEXT)\n"
)
OFFER = form(r"  TEXT TEXT TEXT N\n")
CALL = form(
    r"N (?:SUBSCRIBE (?:-|TEXT)|ACCEPT N N|DECLINE N|KILL TEXT|ACKNOWLEDGE TEXT UUID|RECONCILE N|SHUTDOWN TEXT TEXT|MESSAGE TEXT TEXT N"
    r"|REVIVE|SUPPRESS|TEARDOWN)\n"
)


def last_line(out):
    return out[out.rfind(b"\n", 0, -1) + 1 :]


def expect_form(args, ran, bad):
    """Checks that the status and both outputs have a documented form; for `bad` arguments, that of a usage error."""
    if bad:
        good = ran.status == 2 and not ran.out and USAGE_ERROR.fullmatch(ran.err)
    elif args[:2] == ["show", "--json"]:
        good = ran.status in (0, 1) and JSON_ENDS[ran.status].fullmatch(ran.err) and ran.out[-1:] in (b"", b"\n")
    elif args[0] in ("convert", "relog"):
        good = ran.err == b"" if ran.status == 0 else ran.status == 1 and not ran.out and ERROR_LINE.fullmatch(ran.err)
    else:
        line = last_line(ran.out) if args[0] in ("show", "loopback", "subscribe") else ran.out
        good_end = REPORT if args[0] == "replay" else GOOD_END
        good = not ran.err and ran.status in (0, 1) and (BAD_END if ran.status else good_end).fullmatch(line)
    # The last line names calls only if the records are calls; so does the line of what cannot be written.
    other = rb"\A(?:events|encode failed event) " if "--calls" in args else rb"\A(?:calls|encode failed call) "
    if not good or re.search(other, last_line(ran.out)) or re.search(other, ran.err):
        what = f"{args} ends in an undocumented form"
        raise Difference(f"{what}: status {ran.status}, {ran.out[-300:]!r}, {ran.err[-300:]!r}", None, what, (ran,))


class Program:
    """The built program. All runs share the files for input and output, which is faster."""

    limit = LIMIT
    # Whether a signal of the terminal, as for ctrl-C, ends this script but not the program.
    is_apart = False

    def __init__(self, path):
        self.path = os.path.abspath(path)
        self.input, self.out, self.err = (tempfile.TemporaryFile(buffering=0) for _ in range(3))
        signal.signal(signal.SIGALRM, self.late)

    def late(self, *_):
        raise Hang(f"no end within {self.limit} seconds", what="no end within the time limit")

    def start(self, args, source):
        for file in (self.out, self.err):
            file.seek(0)
            file.truncate()
        return subprocess.Popen([self.path, *args], stdin=source, stdout=self.out, stderr=self.err, close_fds=False, start_new_session=self.is_apart)

    def holding(self, data):
        self.input.seek(0)
        self.input.truncate()
        self.input.write(data)
        self.input.seek(0)
        return self.input

    def end(self, running, feed=lambda: None):
        """Feeds a run, and returns its outputs and status."""
        signal.alarm(self.limit)
        try:
            feed()
            status = running.wait()
        finally:
            signal.alarm(0)
            running.kill()
            running.wait()
        self.out.seek(0)
        self.err.seek(0)
        return Ran(self.out.read(), self.err.read(), status)

    def run(self, args, data, piece=None, bad=False):
        """Runs the command on a file, or on a pipe that gets pieces of `piece` bytes. `bad` arguments are a usage error."""
        if piece is None:
            ran = self.end(self.start(args, self.holding(data)))
        else:
            ran = self.piped(args, data, piece)
        expect_form(args, ran, bad)
        return ran

    def piped(self, args, data, piece):
        # In a pipe of packets no read returns two pieces.
        reading, writing = os.pipe2(os.O_DIRECT | os.O_CLOEXEC)
        running = self.start(args, reading)
        os.close(reading)

        def feed():
            with os.fdopen(writing, "wb", buffering=0) as pipe:
                try:
                    for at in range(0, len(data), piece):
                        pipe.write(data[at : at + piece])
                except BrokenPipeError:
                    pass  # It has read enough.

        return self.end(running, feed)

    def subscribe(self, data, piece):
        """Runs `subscribe` with a server that sends the bytes in pieces of `piece` bytes."""
        with socket.create_server(("127.0.0.1", 0)) as listener:
            to = f"127.0.0.1:{listener.getsockname()[1]}"
            args, request = ["subscribe", "--to", to, "--user", "u", "--name", "n"], SUBSCRIBE_REQUEST % to.encode()

            def feed():
                client = listener.accept()[0]
                with client:
                    client.setsockopt(socket.IPPROTO_TCP, socket.TCP_NODELAY, 1)
                    received = b""
                    while len(received) < len(request) and (more := client.recv(65536)):
                        received += more
                    expect("the request of subscribe", request, received)
                    try:
                        for at in range(0, len(data), piece):
                            client.sendall(data[at : at + piece])
                    except OSError:
                        pass  # It has read enough.

            ran = self.end(self.start(args, subprocess.DEVNULL), feed)
        expect_form(args, ran, False)
        return ran


class Beside(Program):
    """The program, and another one that must have the same outputs and status."""

    # The class of the other program.
    alone = Program

    def __init__(self, path, other):
        super().__init__(path)
        self.other = self.alone(other)

    def run(self, args, data, piece=None, bad=False):
        ran = super().run(args, data, piece, bad)
        expect(f"{args} by {self.other.path}", ran, self.other.run(args, data, piece, bad))
        return ran

    def subscribe(self, data, piece):
        ran = super().subscribe(data, piece)
        expect(f"subscribe by {self.other.path}", ran, self.other.subscribe(data, piece))
        return ran
