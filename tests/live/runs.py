"""A master that runs, a framework that has subscribed there, and the cases, each named by a sentence."""
import os
import re
import select
import subprocess
import tempfile
import threading
import time

from messages import SUBSCRIBE, call, launch, states
from support import shortened
from wire import LIMIT, Broken, Connection, Stream, request

# The cases in the order in which they are written, by sentence.
CASES = {}


class Failed(Exception):
    """An expectation that is not met."""


class Skipped(Exception):
    """What a case needs is not there."""


def case(sentence):
    """Adds a function to the cases. It gets a `Run`, and raises `Failed` or `Broken` if the sentence does not hold."""

    def add(function):
        assert sentence not in CASES, sentence
        CASES[sentence] = function
        return function

    return add


def expect(what, wanted, got):
    if wanted != got:
        raise Failed(f"{what}\n  wanted: {shortened(wanted)}\n  got:    {shortened(got)}")


def expect_within(what, least, most, got):
    if not least <= got <= most:
        raise Failed(f"{what}\n  wanted: {least} to {most}\n  got:    {got:.2f}")


class Master:
    """A `master` that runs at a free port. Its lines are read if nothing else is said."""

    def __init__(self, program, *options, events="", stdin="file", is_read=True):
        """The input is these events, of a file or of a pipe that stays open (`pipe`); or nothing (`null`, `closed`), or a number of a file."""
        self.lines, self.has_line = [], threading.Condition()
        with tempfile.TemporaryFile() as file:
            file.write(events.encode())
            file.seek(0)
            inputs = {"file": file, "pipe": subprocess.PIPE, "null": subprocess.DEVNULL, "closed": None}
            words = [program, "master", "--port", "0", *options]
            if stdin == "closed":
                words = ["sh", "-c", 'exec "$@" <&-', "sh", *words]
            pipes = {"stdout": subprocess.PIPE, "stderr": subprocess.PIPE}
            self.running = subprocess.Popen(words, stdin=inputs.get(stdin, stdin), bufsize=0, **pipes)
        self.rest = b""
        try:
            if stdin == "pipe":
                self.feed(events)
            self.port = self.read_port()
        except BaseException:
            self.end()
            raise
        if is_read:
            threading.Thread(target=self.read_lines, daemon=True).start()

    def read_port(self):
        """Returns the port that the first line has."""
        line = b""
        while not line.endswith(b"\n"):
            byte = self.running.stdout.read(1) if select.select([self.running.stdout], [], [], LIMIT)[0] else b""
            if not byte:
                self.running.kill()
                err, status = self.running.stderr.read().decode(), self.running.wait(LIMIT)
                raise Failed(f"no first line\n  printed: {line!r}, then {err!r}, status {status}")
            line += byte
        found = re.fullmatch(rb"listening on 127\.0\.0\.1:(\d+)\n", line)
        expect("the form of the first line", True, bool(found) or line)
        return int(found[1])

    def read_lines(self):
        """Reads the lines of standard output as they come."""
        while more := self.running.stdout.read(65536):
            self.rest += more
            *lines, self.rest = self.rest.split(b"\n")
            with self.has_line:
                self.lines += [line.decode(errors="backslashreplace") for line in lines]
                self.has_line.notify_all()

    def wait_for_line(self, is_wanted, limit=LIMIT):
        """Returns whether such a line is printed in time."""
        with self.has_line:
            return self.has_line.wait_for(lambda: any(map(is_wanted, self.lines)), limit)

    def feed(self, events):
        """Writes events to the standard input, which stays open, within the limit of time."""
        until, rest = time.monotonic() + LIMIT, memoryview(events.encode())
        os.set_blocking(self.running.stdin.fileno(), False)
        while rest:
            if not select.select([], [self.running.stdin], [], max(0, until - time.monotonic()))[1]:
                raise Failed(f"the input is not read: {len(rest)} bytes are left")
            rest = rest[os.write(self.running.stdin.fileno(), rest) :]

    def connect(self, most=None):
        return Connection(self.port, most)

    def ask(self, data):
        """Sends a request on a connection of its own, and returns its status."""
        connection = self.connect()
        try:
            return connection.ask(data)
        finally:
            connection.close()

    def wait_for_status(self, data, wanted, limit=LIMIT):
        """Asks until this is the status, and returns the last one."""
        until = time.monotonic() + limit
        while (status := self.ask(data)) != wanted and time.monotonic() < until:
            time.sleep(0.05)
        return status

    def processor_time(self):
        """Returns the ticks of processor time that were used so far."""
        with open(f"/proc/{self.running.pid}/stat", encoding="ascii") as file:
            fields = file.read().rsplit(")", 1)[1].split()
        return int(fields[11]) + int(fields[12])

    def memory(self):
        """Returns the memory that is used, in KiB."""
        with open(f"/proc/{self.running.pid}/status", encoding="ascii") as file:
            return int(re.search(r"^VmRSS:\s+(\d+)", file.read(), re.MULTILINE)[1])

    def open_files(self):
        """Returns the number of open files, sockets among them."""
        return len(os.listdir(f"/proc/{self.running.pid}/fd"))

    def wait(self, limit=LIMIT):
        """Returns the exit status, once it ends."""
        try:
            return self.running.wait(limit)
        except subprocess.TimeoutExpired as error:
            raise Failed(f"it did not end in {limit} s") from error

    def end(self):
        self.running.kill()
        self.running.wait()
        for pipe in (self.running.stdin, self.running.stdout, self.running.stderr):
            if pipe and pipe is not self.running.stdout:
                pipe.close()


class Framework:
    """A framework with a stream of its own, and a connection for its other calls."""

    def __init__(self, port, more=None, stream=None, most=None):
        """Subscribes with these members more in the call, and names a stream, if one is given."""
        self.port, self.calls = port, None
        self.stream = Stream(port, request(SUBSCRIBE | (more or {}), stream), most)
        expect("the status of a SUBSCRIBE", "200", self.stream.head.status)
        self.first = self.stream.read_event()
        expect("the first event", "SUBSCRIBED", self.first["type"])
        self.id = self.first["subscribed"]["framework_id"]["value"]

    def bytes_of(self, name, body=None, *fields):
        return request(call(name, self.id, body), self.stream.id, *fields)

    def ask(self, name, body=None):
        """Returns the status of a call on a connection that is kept."""
        self.calls = self.calls or Connection(self.port)
        return self.calls.ask(self.bytes_of(name, body))

    def do(self, name, body=None):
        expect(f"the status of {name}", "202", self.ask(name, body))

    def next(self, limit=LIMIT):
        return self.stream.next(limit)

    def read_offers(self, *wanted, limit=LIMIT):
        """Reads OFFERS until as many offers came as these, which must be those, and returns the events."""
        got, until = [], time.monotonic() + limit
        while len(got) < len(wanted):
            event = self.next(until - time.monotonic())
            expect(f"the type of an event before the offers {wanted}", "OFFERS", event and event["type"])
            got += event["offers"]["offers"]
        expect("the offers", list(wanted), [it["id"]["value"] for it in got])
        return got

    def read_update(self, task, state, limit=LIMIT):
        """Reads an UPDATE, which must be of this task and state, and returns its status."""
        event = self.next(limit)
        expect("the next event", [(task, state)], states([event]))
        return event["update"]["status"]

    def acknowledge(self, status):
        self.do("ACKNOWLEDGE", {name: status[name] for name in ("agent_id", "task_id", "uuid")})

    def step(self, task, state):
        """Reads such an UPDATE and acknowledges it, and returns its status."""
        status = self.read_update(task, state)
        self.acknowledge(status)
        return status

    def run_tasks(self, ids, *tasks):
        """Launches tasks, whose updates are acknowledged until they run. They run one after the other, if several are launched."""
        self.do("ACCEPT", launch(ids, *tasks))
        waiting = {it["task_id"]["value"]: ["TASK_STARTING", "TASK_RUNNING"] for it in tasks}
        while any(waiting.values()):
            status = self.next()["update"]["status"]
            left = waiting[status["task_id"]["value"]]
            expect(f"the state of {status['task_id']['value']}", left[:1], [status["state"]])
            left.pop(0)
            self.acknowledge(status)

    def expect_nothing(self, seconds):
        """Expects no event but HEARTBEATs for this long."""
        expect(f"the events of {seconds} s in which none may come", [], self.stream.read_within(seconds))


class Run:
    """What a case has started, which ends with it."""

    def __init__(self, program):
        self.program, self.masters = program, []

    def master(self, *options, **how):
        self.masters.append(Master(self.program, *options, **how))
        return self.masters[-1]

    def framework(self, *options, **how):
        """Starts a master, subscribes there, and reads the first HEARTBEAT."""
        master = self.master(*options, **how)
        framework = Framework(master.port)
        expect("the event after SUBSCRIBED", {"type": "HEARTBEAT"}, framework.stream.read_event())
        return master, framework

    def end(self):
        for master in self.masters:
            master.end()

    def try_case(self, function):
        """Returns why a case failed, or none."""
        try:
            function(self)
        except (Failed, Broken, OSError, LookupError, TypeError, ValueError, AssertionError, subprocess.TimeoutExpired) as error:
            why = str(error) if isinstance(error, Failed) else repr(error)
            printed = [master.lines[-8:] for master in self.masters]
            return f"{why}\n  printed at last: {shortened(printed)}"
        finally:
            self.end()
        return None
