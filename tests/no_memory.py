#!/usr/bin/env python3
"""Runs the built command again and again, and makes each allocation fail in turn.

Each allocation of a run fails alone, and then with all later ones. If a run makes more than 4,000
(200 with all later ones), that many are spread over all, and a line prints their number. A run of
PROGRAM must end as with ample memory, or print a first part of the same lines and then fault F13,
with status 1. `serve` and `subscribe` are connected to clients and servers of this script.

EXAMPLES is the built program of crates/mesosev_examples, which prints a line for each public call.
A line must be the same as with ample memory, or have `no memory` and then the results of the
repeated call. If the line reports the number of bytes used by then, it must lie between the
positions that the results before and after it report. WORLDS is the built program of
crates/mes_double_worlds. Each list of moves must lead to the same world as with ample memory, or to
`no memory`.

A case has the name of its run, such as "check of some events". Without a C compiler (cc) all cases
are skipped.
"""
import concurrent.futures
import functools
import itertools
import os
import re
import shutil
import socket
import subprocess
import sys
import tempfile
import threading
import time

sys.dont_write_bytecode = True
import support
from support import TOP, Cases, chunked, parser, read_all, record

# The time limit of a run, in seconds.
LIMIT = 120
# The most allocations of a run that fail alone, and with all later ones.
MAX_ALONE = 4000
MAX_WITH_LATER = 200

HEARTBEAT = support.BEAT.encode()
UPDATE = (
    b'{"type":"UPDATE","update":{"status":{"task_id":{"value":"T1"},"state":"TASK_RUNNING","agent_id":{"value":"A1"},'
    b'"uuid":"AAECAwQFBgcICQoLDA0ODw=="}}}'
)
OFFERS = (
    b'{"type":"OFFERS","offers":[{"id":{"value":"O1"},"framework_id":{"value":"F1"},"agent_id":{"value":"A1"},"hostname":"h",'
    b'"resources":[{"name":"cpus","type":"SCALAR","scalar":{"value":1.5},"role":"*"},'
    b'{"name":"ports","type":"RANGES","ranges":{"range":[{"begin":1,"end":2}]}}]}]}'
)


def offer(number, rest=b""):
    """Returns an offer with texts that are too long to be stored inline."""
    return (
        b'{"id":{"value":"an offer of a long identifier %d"},"framework_id":{"value":"F1"},"agent_id":{"value":"an agent of a long identifier"},'
        b'"hostname":"a host of a long name"%s}' % (number, rest)
    )


def offers(list_of):
    return b'{"type":"OFFERS","offers":{"offers":[%s]}}' % b",".join(list_of)


def update(number):
    """Returns an update that requires an acknowledgement, with a key of its own."""
    return (
        b'{"type":"UPDATE","update":{"status":{"task_id":{"value":"a task of a long identifier %d"},"state":"TASK_RUNNING",'
        b'"agent_id":{"value":"an agent of a long identifier"},"uuid":"AAECAwQFBgcICQoLDA0ODw=="}}}' % number
    )


PLAIN = HEARTBEAT + record(UPDATE) + record(OFFERS) + record(b'{"type":"X"}')
LONG_TEXT = record(b'{"type":"HEARTBEAT","a":"' + b"x" * 300 + b'"}')
SPACES = record(b" " * 4000 + b'{"type":"HEARTBEAT"}')

# Events for each kind of allocation: long texts with escapes, bytes and numbers; long lists; many unknown
# members, and all known ones; the deepest arrays and objects, in a member that is dropped and in one that is
# stored; many unacknowledged updates.
LONG_TEXTS = [
    b'{"type":"ERROR","error":{"message":"%s"}}' % (b"a text \\u00e9\\n\\ud834\\udd1e" * 400),
    b'{"type":"MESSAGE","message":{"agent_id":{"value":"%s"},"executor_id":{"value":"E"},"data":"%s"}}' % (b"A" * 2000, b"Zm9v" * 2000),
    b'{"type":"HEARTBEAT","x":[%s]}' % b",".join([b"1234567890.0987654321e-12"] * 300),
]
MANY_OFFERS = [offers([offer(number) for number in range(200)])]
SCALAR = b'{"name":"cpus","type":"SCALAR","scalar":{"value":0.001},"role":"*"}'
RANGES = b'{"name":"ports","type":"RANGES","ranges":{"range":[%s]}}' % b",".join(b'{"begin":%d,"end":%d}' % (n, n) for n in range(0, 600, 2))
SET = b'{"name":"disks","type":"SET","set":{"item":[%s]}}' % b",".join(b'"a disk of a long name %d"' % number for number in range(100))
RESERVED = (
    b'{"name":"disk","type":"SCALAR","scalar":{"value":10},"role":"*","allocation_info":{"role":"web"},"reservations":[{"type":"DYNAMIC",'
    b'"role":"web","principal":"p","labels":{"labels":[{"key":"k","value":"v"}]}}],"disk":{"volume":{"mode":"RW","container_path":"p"}},'
    b'"revocable":{},"shared":{},"provider_id":{"value":"P1"}}'
)
MANY_RESOURCES = [offers([offer(0, b',"resources":[%s]' % b",".join([SCALAR] * 200 + [RANGES, SET] + [RESERVED] * 10))])]
KNOWN_MEMBERS = (
    b'{"type":"UPDATE","update":{"status":{"task_id":{"value":"T1"},"state":"TASK_UNREACHABLE","message":"a message of some length",'
    b'"source":"SOURCE_MASTER","reason":"REASON_AGENT_DISCONNECTED","data":"Zm9vYmFyYmF6Zm9vYmFyYmF6","agent_id":{"value":"A1"},'
    b'"executor_id":{"value":"E1"},"timestamp":1.5,"uuid":"AAECAwQFBgcICQoLDA0ODw==","healthy":false,'
    b'"labels":{"labels":[{"key":"a key of a long name","value":"a value of some length"}]},"unreachable_time":{"nanoseconds":1}}}}'
)
UNKNOWN_MEMBERS = b",".join(b'"member %d":[{"x":null}]' % number for number in range(300))
MANY_MEMBERS = [b'{"type":"HEARTBEAT",%s}' % UNKNOWN_MEMBERS, KNOWN_MEMBERS]
DEEP_ARRAYS = b"[" * 126 + b"]" * 126
DEEP_LIST = [b'{"type":"HEARTBEAT","x":[%s]}' % DEEP_ARRAYS]
KEPT = b'{"a":' * 121 + b"{}" + b"}" * 121
DEEP_OBJECT = [offers([offer(0, b',"resources":[{"name":"disk","type":"SET","set":{},"disk":%s}]' % KEPT)])]
MANY_UPDATES = [update(number) for number in range(40)]
EVENTS = {
    "long texts": LONG_TEXTS,
    "many offers": MANY_OFFERS,
    "many resources": MANY_RESOURCES,
    "many members": MANY_MEMBERS,
    "deep arrays": DEEP_LIST,
    "a deep object": DEEP_OBJECT,
    "many updates": MANY_UPDATES,
}
STREAMS = {"some events": PLAIN, **{name: b"".join(map(record, events)) for name, events in EVENTS.items()}}

# A SUBSCRIBE of short texts, and one with as many of those kinds as a call can have.
SUBSCRIBE = b'{"type":"SUBSCRIBE","subscribe":{"framework_info":{"user":"root","name":"n"}}}'
LARGE_SUBSCRIBE = b'{"type":"SUBSCRIBE","x":[%s],%s,"subscribe":{"framework_info":{"user":"%s","name":"%s","roles":[%s],"capabilities":[%s]}}}' % (
    DEEP_ARRAYS,
    UNKNOWN_MEMBERS,
    b"a user of a long name" * 200,
    b"a framework \\u00e9\\n\\ud834\\udd1e" * 200,
    b",".join(b'"a role of a long name %d"' % number for number in range(60)),
    b",".join([b'{"type":"a capability of a long name"}'] * 60),
)

# A session log of version 1: a framework whose id is allocated, offers, an update and its acknowledgement. Then
# the same log in version 2, with a disconnection at its end.
FRAMEWORK = b"F" * 20
SUBSCRIBED = b'E{"type":"SUBSCRIBED","subscribed":{"framework_id":{"value":"%s"}}}' % FRAMEWORK
LOG = b"".join([
    record(SUBSCRIBED),
    record(b"E" + OFFERS),
    record(b"E" + UPDATE),
    record(
        b'C{"type":"ACKNOWLEDGE","framework_id":{"value":"%s"},"acknowledge":{"agent_id":{"value":"A1"},"task_id":{"value":"T1"},'
        b'"uuid":"AAECAwQFBgcICQoLDA0ODw=="}}' % FRAMEWORK
    ),
])
DISCONNECTED_LOG = b"1\n2" + LOG + b"1\nB"
# Logs of sessions with many outstanding offers, from few events and from many, and with many unacknowledged
# updates.
DECLINE = b'C{"type":"DECLINE","framework_id":{"value":"%s"},"decline":{"offer_ids":[%s]}}' % (
    FRAMEWORK,
    b",".join(b'{"value":"an offer of a long identifier %d"}' % number for number in range(0, 200, 3)),
)
MANY_OFFERS_LOG = record(SUBSCRIBED) + record(b"E" + MANY_OFFERS[0]) + record(DECLINE)
MANY_EVENTS_LOG = record(SUBSCRIBED) + b"".join(record(b"E" + offers([offer(number)])) for number in range(200))
MANY_UPDATES_LOG = record(SUBSCRIBED) + b"".join(record(b"E" + update(number)) for number in range(200))


def task(number):
    """Returns a task with long texts, long lists, unknown members, the greatest depth in a call, and its own ports."""
    return (
        b'{"name":"%s","task_id":{"value":"a task of a long identifier %d"},"agent_id":{"value":"an agent of a long identifier"},'
        b'"resources":[{"name":"ports","type":"RANGES","ranges":{"range":[%s]}}],"command":{"value":"a command of some length",'
        b'"arguments":[%s]},"executor":{"a":%s},"x":%s,%s}'
    ) % (
        b"a task \\u00e9\\n\\ud834\\udd1e" * 100,
        number,
        b",".join(b'{"begin":%d,"end":%d}' % (port, port) for port in range(number * 40, number * 40 + 40, 2)),
        b",".join([b'"an argument of some length"'] * 30),
        DEEP_ARRAYS[6:-6],
        DEEP_ARRAYS[5:-5],
        UNKNOWN_MEMBERS,
    )


def accept(framework):
    """Returns a call with each kind of allocation, which launches tasks on the offer of MANY_RESOURCES."""
    return (
        b'{"type":"ACCEPT","framework_id":{"value":"%s"},"accept":{"offer_ids":[{"value":"an offer of a long identifier 0"}],'
        b'"operations":[{"type":"LAUNCH","launch":{"task_infos":[%s]}}],"filters":{"refuse_seconds":1.5}}}'
    ) % (framework, b",".join(map(task, range(3))))


# The bodies of the calls other than SUBSCRIBE.
CALL_BODIES = {
    b"ACCEPT": b',"accept":{"offer_ids":[{"value":"O1"}],"operations":[]}',
    b"DECLINE": b',"decline":{"offer_ids":[{"value":"O1"}],"filters":{"refuse_seconds":5}}',
    b"REVIVE": b"",
    b"KILL": b',"kill":{"task_id":{"value":"a task of a long identifier"},"agent_id":{"value":"A1"}}',
    b"ACKNOWLEDGE": b',"acknowledge":{"agent_id":{"value":"A1"},"task_id":{"value":"T1"},"uuid":"AAECAwQFBgcICQoLDA0ODw=="}',
    b"RECONCILE": b',"reconcile":{"tasks":[{"task_id":{"value":"a task of a long identifier"}}]}',
    b"TEARDOWN": b"",
    b"SUPPRESS": b"",
    b"SHUTDOWN": b',"shutdown":{"executor_id":{"value":"an executor of a long identifier"},"agent_id":{"value":"A1"}}',
    b"MESSAGE": b',"message":{"agent_id":{"value":"A1"},"executor_id":{"value":"E1"},"data":"Zm9vYmFyYmF6Zm9vYmFyYmF6"}',
}
LAUNCH_LOG = record(SUBSCRIBED) + record(b"E" + MANY_RESOURCES[0]) + record(b"C" + accept(FRAMEWORK))
LOGS = {
    "a log": LOG,
    "a log with a disconnection": DISCONNECTED_LOG,
    "many outstanding offers": MANY_OFFERS_LOG,
    "many unacknowledged updates": MANY_UPDATES_LOG,
    "tasks launched": LAUNCH_LOG,
    **{name: record(SUBSCRIBED) + b"".join(record(b"E" + event) for event in EVENTS[name]) for name in EVENTS if name != "many offers"},
}

# The events and the calls of the inputs above as JSON Lines, with an empty line before each, and the calls as records.
SOME_LINES = b"".join(b"\r\n%s\n" % event for event in (support.BEAT.encode()[3:], UPDATE, OFFERS, b'{"type":"X"}'))
MANY_LINES = b"\n".join(event for events in EVENTS.values() for event in events)
CALLS = [SUBSCRIBE, *(b'{"type":"%s","framework_id":{"value":"%s"}%s}' % (name, FRAMEWORK, body) for name, body in CALL_BODIES.items())]
LARGE_CALLS = [LARGE_SUBSCRIBE, accept(FRAMEWORK), DECLINE[1:]]

# The name of an input, the arguments, and the input.
CASES = [
    *((name, [command], data) for command in ("check", "show", "convert", "loopback") for name, data in STREAMS.items()),
    *((name, [command, "--json"], data) for command in ("show", "convert") for name, data in STREAMS.items()),
    *((name, ["replay", "--json"], data) for name, data in LOGS.items()),
    *((name, [command], data) for command in ("replay", "relog") for name, data in LOGS.items()),
    ("many events", ["replay"], MANY_EVENTS_LOG),
    ("a fault", ["check"], b"2\n{}"),
    ("some events", ["convert", "--most", "7"], PLAIN),
    ("many offers", ["convert", "--most", "4096"], STREAMS["many offers"]),
    ("some events", ["check", "--chunked"], chunked(PLAIN, 30)),
    ("some events", ["show", "--chunked"], chunked(PLAIN, 4096)),
    ("some events", ["loopback", "--most", "7"], PLAIN),
    *((name, [command, "--lines"], data) for command in ("check", "show", "convert") for name, data in (("some events", SOME_LINES), ("many events", MANY_LINES))),
    ("some events", ["show", "--json", "--lines"], SOME_LINES),
    *(
        (name, [*args, "--calls"], b"".join(map(record, calls)))
        for args in (["check"], ["show"], ["show", "--json"], ["convert"])
        for name, calls in (("some calls", CALLS), ("large calls", LARGE_CALLS))
    ),
    ("some calls in lines", ["show", "--calls", "--lines"], b"\n".join(CALLS)),
    ("a port without a server", ["subscribe", "--to", "127.0.0.1:1", "--user", "u" * 40, "--name", "n" * 40], b""),
    ("a usage error", ["serve", "--port", "1", "--count", "0"], b""),
    ("a usage error", ["check", "--limit", "0"], b""),
    ("help", ["--help"], b""),
]
# The name of an input of `serve`, the input, and the calls that clients send, one after the other.
SERVED = [
    *((name, data, [SUBSCRIBE]) for name, data in STREAMS.items()),
    ("some events by a large call", PLAIN, [LARGE_SUBSCRIBE]),
    ("tasks launched", STREAMS["many resources"], [SUBSCRIBE, accept(b"F1")]),
]
# The inputs with which the status is not 0.
FAILING = {"a fault", "a port without a server", "a usage error"}

NO_MEMORY_LINE = re.compile(rb"fault F13 NoMemory after (\d+)\n")
# The line for an event of a log whose effect cannot be stored.
NO_MEMORY_EVENT = re.compile(rb"refused S8 NoMemory record (\d+)\n")


class Program:
    """A built program, whose allocations can fail."""

    def __init__(self, path, library):
        self.path = os.path.abspath(path)
        self.library = library

    def start(self, args, data, refused_at=0, refuses_all=False, count=None):
        """Starts it on these bytes. It writes the number of its allocations to the file `count`."""
        env = {"LD_PRELOAD": self.library, "REFUSE_AT": str(refused_at)}
        if refuses_all:
            env["REFUSE_ALL"] = "1"
        if count:
            env["REFUSE_COUNT"] = count
        with tempfile.TemporaryFile() as stdin:
            stdin.write(data)
            stdin.seek(0)
            return subprocess.Popen([self.path, *args], stdin=stdin, stdout=subprocess.PIPE, stderr=subprocess.PIPE, env=env)

    def run(self, args, data, refused_at=0, refuses_all=False, count=None):
        """Returns the status and both outputs of a run."""
        return outcome(self.start(args, data, refused_at, refuses_all, count))


def outcome(process):
    """Waits for the end of a process, and returns its status and both outputs."""
    try:
        out, err = process.communicate(timeout=LIMIT)
    except subprocess.TimeoutExpired:
        process.kill()
        out, err = process.communicate()
    return process.returncode, out, err


class Trial:
    """The runs of one input: with ample memory, and with failed allocations.

    The arguments of `run` are the number of the failed allocation, whether all later ones fail too,
    and the file for the number of allocations.
    """

    def __init__(self, name, run, room):
        self.name, self.run = name, run
        count = f"{room}/count"
        self.ample = run(0, False, count)
        with open(count, encoding="ascii") as it:
            self.total = int(it.read())

    def failures(self, max_alone, max_with_later):
        """Returns the allocations that are to fail: pairs of a number, and whether all later ones fail too."""
        alone, with_later = spread(self.total, max_alone), spread(self.total, max_with_later)
        if len(with_later) < self.total:
            print(f"{self.name}: {len(alone)} of {self.total} allocations fail alone, {len(with_later)} with all later ones")
        return [(number, False) for number in alone] + [(number, True) for number in with_later]

    def run_all(self, pool, max_alone=MAX_ALONE, max_with_later=MAX_WITH_LATER):
        """Runs the program with failed allocations. Returns the outcome of each run."""
        failures = self.failures(max_alone, max_with_later)
        self.outcomes = dict(zip(failures, pool.map(lambda it: self.run(*it, None), failures)))
        return self.outcomes

    def wrong(self, is_right, pool):
        """Describes the runs whose outcome is wrong."""
        return [self.row(*it) for it, got in self.run_all(pool).items() if not is_right(self.ample, got, it[1])]

    def row(self, number, refuses_all):
        """Describes a run: which allocation fails, the outcome with ample memory, and the outcome."""
        which = " and all later ones fail" if refuses_all else " fails"
        return (
            f"input:    {self.name}, allocation {number} of {self.total}{which}"
            f"\n  expected: no memory, or as with ample memory: {shortened(self.ample)}"
            f"\n  got:      {shortened(self.outcomes[number, refuses_all])}"
        )

    def ample_row(self):
        """Describes the run with ample memory, which has failed."""
        return f"input:    {self.name}, ample memory\n  got:      {shortened(self.ample)}"


def spread(total, limit):
    """Returns at most `limit` of the numbers 1 to `total`: all, or the first, the last, and others at equal distances."""
    if total <= limit:
        return range(1, total + 1)
    ends = limit // 4
    between = [ends + 1 + (total - 2 * ends) * at // (limit - 2 * ends) for at in range(limit - 2 * ends)]
    return sorted(set(range(1, ends + 1)) | set(between) | set(range(total - ends + 1, total + 1)))


def shortened(outcome):
    return ", ".join(repr(it[-200:]) if isinstance(it, bytes) else repr(it) for it in outcome)


def ends_in_no_memory(written, ample, size):
    """Returns whether the text is first lines of the ample run, except its last line, and then fault F13 after at
    most `size` bytes."""
    found = NO_MEMORY_LINE.search(written)
    if not found or found.end() != len(written) or int(found[1]) > size:
        return False
    front = written[: found.start()]
    return front[-1:] in (b"", b"\n") and ample[: ample.rfind(b"\n", 0, -1) + 1].startswith(front)


def is_front(size, ample, got, _=False):
    """Returns whether output that is printed as the input is read is right: first lines of the ample run and fault
    F13, or all lines. The input has `size` bytes; that of a connection as many as the last line reports."""
    received = re.search(rb" (\d+)\n\Z", ample[1])
    size = max(size, int(received[1]) if received else 0)
    return got == ample or (got[0] == 1 and got[2] == b"" and ends_in_no_memory(got[1], ample[1], size))


def is_whole(size, ample, got, _=False):
    """Returns whether output that is written as a whole is right: all, or nothing and fault F13."""
    if got == ample:
        return True
    status, out, err = got
    # Until the arguments are parsed, F13 goes to standard output.
    return status == 1 and ((out == b"" and ends_in_no_memory(err, b"", size)) or (err == b"" and out == b"fault F13 NoMemory after 0\n"))


def is_replayed(events, size, ample, got, _=False):
    """Returns whether the output of `replay` is right: a report, fault F13, or S8 for one of the first `events`
    records, which are events."""
    if got == ample:
        return True
    status, out, err = got
    found = NO_MEMORY_EVENT.fullmatch(out)
    return status == 1 and err == b"" and (ends_in_no_memory(out, b"", size) or (found is not None and 1 <= int(found[1]) <= events))


def is_exported(size, ample, got, _=False):
    """Returns whether the output of `show --json` is right: first lines of the ample run, and fault F13 on standard
    error."""
    if got == ample or is_whole(size, ample, got):
        return True
    status, out, err = got
    return status == 1 and out[-1:] in (b"", b"\n") and ample[1].startswith(out) and ends_in_no_memory(err, b"", size)


def is_replayed_json(events, size, ample, got, _=False):
    """Returns whether the output of `replay --json` is right: the session, or an error like that of `replay` on
    standard error."""
    if got == ample or is_whole(size, ample, got):
        return True
    status, out, err = got
    return out == b"" and is_replayed(events, size, ample, (status, err, b""))


def predicate_of(args, data):
    """Returns the function that decides whether a run with these arguments on these bytes is right."""
    if args[:2] == ["replay", "--json"]:
        return functools.partial(is_replayed_json, data.count(b"\nE"), len(data))
    if args[:2] == ["show", "--json"]:
        return functools.partial(is_exported, len(data))
    if args[0] == "replay":
        return functools.partial(is_replayed, data.count(b"\nE"), len(data))
    return functools.partial(is_whole if args[0] in ("convert", "relog") else is_front, len(data))


def try_case(program, room, pool, name, args, data):
    """Makes allocations fail in turn. Returns the rows that are wrong."""
    trial = Trial(f"{' '.join(args[:3])} of {name}", lambda *failed: program.run(args, data, *failed), room)
    if (trial.ample[0] != 0) != (name in FAILING):
        return [trial.ample_row()]
    return trial.wrong(predicate_of(args, data), pool)


def free_ports():
    """Yields free ports below those that the system assigns to sockets."""
    for port in itertools.cycle(range(20000, 32000)):
        with socket.socket() as it:
            it.setsockopt(socket.SOL_SOCKET, socket.SO_REUSEADDR, 1)
            try:
                it.bind(("127.0.0.1", port))
            except OSError:
                continue
        yield port


def ask(process, port, call):
    """Sends a call on the first stream to the program on this port, and returns the response, or None if the
    program ends before it listens."""
    head = (
        b"POST /api/v1/scheduler HTTP/1.1\r\nHost: h\r\nContent-Type: application/json\r\nContent-Length: %d\r\n"
        b"Mesos-Stream-Id: 00000000-0000-4000-8000-000000000001\r\n\r\n" % len(call)
    )
    until = time.monotonic() + LIMIT
    while process.poll() is None and time.monotonic() < until:
        try:
            with socket.create_connection(("127.0.0.1", port), timeout=LIMIT) as client:
                client.sendall(head + call)
                return read_all(client)
        except (ConnectionRefusedError, ConnectionResetError, BrokenPipeError):
            time.sleep(0.001)
    return None


def try_served(program, room, pool, ports, name, data, calls):
    """Makes allocations of `serve` fail. Each call is a connection, whose response belongs to the outcome."""
    lock = threading.Lock()

    def run(sent, *failed):
        with lock:
            port = next(ports)
        process = program.start(["serve", "--port", str(port), "--count", str(len(sent))], data, *failed)
        responses = [ask(process, port, call) for call in sent]
        return (*outcome(process), *responses)

    trial = Trial(f"serve of {name}", functools.partial(run, calls), room)
    unsubscribed = run(calls[1:]) if calls[1:] else (0, b"", b"")
    if trial.ample[:3] != (0, b"200 SUBSCRIBE\n" + b"202 ACCEPT\n" * len(calls[1:]), b""):
        return [trial.ample_row()]
    return trial.wrong(functools.partial(is_served, connections(unsubscribed), len(data)), pool)


def connections(ran):
    """Returns the line and the response of each connection."""
    return list(itertools.zip_longest(ran[1].splitlines(keepends=True), ran[3:]))


def is_same_or_closed(expected, got):
    """Returns whether a connection has the expected line and response, or was closed without a response."""
    return got in (expected, (b"- -\n", b""), (b"- " + expected[0].split()[1] + b"\n", b""))


def is_served(unsubscribed, size, ample, got, refuses_all):
    """Returns whether the outcome of `serve` is right.

    Each connection has the same response as with ample memory, or none. If only one allocation
    failed, at most one has none. If SUBSCRIBE has no response, a later call may have that of a
    master without a subscription. Otherwise there is no connection, and fault F13.
    """
    status, out, err, *responses = got
    if responses[0] is None:
        return status == 1 and err == b"" and ends_in_no_memory(out, b"", size)
    expected, found = connections(ample), connections(got)
    if (status, err, len(found)) != (0, b"", len(expected)):
        return False
    allowed = [[it] for it in expected]
    if found[0] != expected[0]:
        allowed[1:] = [[*may, other] for may, other in zip(allowed[1:], unsubscribed)]
    others = [(one, other) for one, other, may in zip(expected, found, allowed) if other not in may]
    return all(is_same_or_closed(*it) for it in others) and (refuses_all or len(others) <= 1)


class Server:
    """A server that sends the same response to each request, and records the requests."""

    def __init__(self, response):
        self.listener = socket.create_server(("127.0.0.1", 0), backlog=64)
        self.port, self.response, self.requests = self.listener.getsockname()[1], response, set()
        self.serving = threading.Thread(target=self.serve, daemon=True)
        self.serving.start()

    def close(self):
        """Accepts no more connections. The thread ends first: a later server's socket may get the same number."""
        self.listener.shutdown(socket.SHUT_RDWR)
        self.serving.join()
        self.listener.close()

    def serve(self):
        while True:
            try:
                client, _ = self.listener.accept()
            except OSError:
                return
            threading.Thread(target=self.serve_one, args=(client,), daemon=True).start()

    def serve_one(self, client):
        with client:
            client.settimeout(LIMIT)
            try:
                self.requests.add(read_request(client))
                client.sendall(self.response)
            except OSError:
                pass


def read_request(client):
    """Reads a request up to the end of its body or of the connection, and returns the bytes."""
    received = b""
    while True:
        head, end, body = received.partition(b"\r\n\r\n")
        length = re.search(rb"Content-Length: (\d+)", head)
        if end and length and len(body) >= int(length[1]):
            return received
        more = client.recv(65536)
        if not more:
            return received
        received += more


def try_subscribed(program, room, pool, name, data):
    """Makes allocations of `subscribe` fail. Its server must receive the whole request or no byte."""
    head = b"HTTP/1.1 200 OK\r\nContent-Type: application/json\r\nTransfer-Encoding: chunked\r\nMesos-Stream-Id: s1\r\n\r\n"
    server = Server(head + chunked(data, 4096))
    args = ["subscribe", "--to", f"127.0.0.1:{server.port}", "--user", "u" * 4000, "--name", "n" * 40]
    trial = Trial(f"subscribe to {name}", lambda *failed: program.run(args, data, *failed), room)
    request = set(server.requests)
    if trial.ample[0] != 0 or len(request) != 1:
        return [trial.ample_row()]
    wrong = trial.wrong(functools.partial(is_front, 0), pool)
    server.close()
    if not server.requests <= request | {b""}:
        wrong.append(f"{trial.name}: other requests: {sorted(server.requests - request)[:3]}")
    return wrong


def total_of(program, room, args, data):
    """Returns the number of allocations of a run with ample memory."""
    return Trial(" ".join(args), lambda *failed: program.run(args, data, *failed), room).total


def outputs(program, room, pool, args, data, refuses_all=False):
    """Returns the standard output of the runs in which each allocation fails in turn."""
    numbers = range(1, total_of(program, room, args, data) + 1)
    return [out for _, out, _ in pool.map(lambda number: program.run(args, data, number, refuses_all), numbers)]


def try_spaces(program, room, pool):
    """Checks that the bytes of a record are not stored: the first allocation comes after its 4,000 spaces."""
    found = [NO_MEMORY_LINE.search(out) for out in outputs(program, room, pool, ["check"], SPACES)]
    after = [int(it[1]) for it in found if it and int(it[1]) > 0]
    if after and min(after) > 4005:
        return []
    return [f"input:    check of a record of spaces\n  expected: F13 after more than 4005\n  got:      F13 after {sorted(set(after))}"]


def try_long_text(program, room, pool):
    """Checks that F13 reports the byte whose allocation failed.

    Of characters that are read together, it is the one after those that fitted. All texts of a
    record are in one buffer. Its capacity grows to 8 bytes, to 16, and then to the needed size or
    twice the old one.
    """
    first = LONG_TEXT.index(b"xx") + 1
    before = len("type" + "HEARTBEAT" + "a")
    expected = {
        0,  # the arguments and the input buffer, before a byte is read
        LONG_TEXT.index(b"{") + 1,  # the first token
        LONG_TEXT.index(b"type") + 1,  # the first 8 bytes of texts
        LONG_TEXT.index(b"HEARTBEAT") + 1 + 8 - len("type"),  # 16 of them
        first + 16 - before,  # the 300 characters
        first + 300,  # the fifth token, after them
        len(LONG_TEXT),  # the list of events
    }
    found = [NO_MEMORY_LINE.search(out) for out in outputs(program, room, pool, ["check"], LONG_TEXT, True)]
    after = {int(it[1]) for it in found if it}
    if after == expected:
        return []
    return [f"input:    check of {LONG_TEXT!r}\n  expected: F13 after {sorted(expected)}\n  got:      F13 after {sorted(after)}"]


def try_lines(program, room, pool):
    """Checks that F13 for the lines of an event follows the lines of the event before it, and reports 0 bytes."""
    printed = set(outputs(program, room, pool, ["show"], PLAIN))
    expected = b"1 HEARTBEAT\nfault F13 NoMemory after 0\n"
    if expected in printed:
        return []
    return [f"input:    show of {PLAIN!r}\n  expected: {expected!r} in a run\n  got:      {sorted(printed)[:5]}"]


def try_replay(program, room, pool, log):
    """Checks that S8 is printed for each event of a log, and then F13 for its report, after 0 bytes."""
    printed = outputs(program, room, pool, ["replay"], log)
    events = [at for at, out in enumerate(printed) if NO_MEMORY_EVENT.fullmatch(out)]
    records = {int(NO_MEMORY_EVENT.fullmatch(printed[at])[1]) for at in events}
    later = printed[events[-1] + 1 :] if events else []
    if records == {1, 2, 3} and b"fault F13 NoMemory after 0\n" in later:
        return []
    return [
        f"input:    replay of {log!r}\n  expected: S8 of the records 1, 2, 3, later F13 after 0"
        f"\n  got:      S8 of the records {sorted(records)}, later {sorted(set(later))[:5]}"
    ]


def try_sizes(program, room):
    """Checks that nothing is allocated for the size of a record: the largest needs no more allocations than the smallest."""
    sizes = [b"20\n{", b"16777216\n{", b"67108864\n{"]
    totals = [total_of(program, room, ["check", "--limit", "67108864"], data) for data in sizes]
    return [] if len(set(totals)) == 1 else [f"input:    {sizes}\n  expected: equal numbers of allocations\n  got:      {totals}"]


# A line of the worked examples is a row: a name, and the results of its calls. The result `no memory` may have
# the number of bytes used, or of the log's entry.
NO_MEMORY = b"no memory"
# What precedes a line that is not a move.
NO_MOVE = b"no move: "
NO_MEMORY_RESULT = re.compile(rb"no memory(?: after (?P<used>\d+)| in record (?P<record>\d+))?")
# The number of bytes used that a result reports, and the number of entries of a log.
POSITION = re.compile(rb"(?:at|after|bytes) (\d+)$")
ENTRIES = re.compile(rb"entries (\d+) bytes \d+")


def row_of(line):
    """Returns the name of a row, and its results."""
    name, _, results = line.partition(b": ")
    return name, results.split(b", ")


def positions_in(results):
    """Returns the numbers of bytes used that the results report."""
    return [int(it[1]) for it in map(POSITION.search, results) if it]


def is_in_place(result, before, after):
    """Returns whether an allocation can have failed at the position of a result `no memory`.

    The number of bytes used is greater than in each result before it, and not greater than in any
    after it. The number of an entry is one of the log's.
    """
    if result["used"]:
        used, later = int(result["used"]), positions_in(after)
        return bool(later) and max(positions_in(before), default=-1) < used <= min(later)
    if result["record"]:
        counts = [int(it[1]) for it in map(ENTRIES.fullmatch, before) if it]
        return len(counts) == 1 and 1 <= int(result["record"]) <= counts[0]
    return True


def is_repeated(results, same, rest):
    """Returns whether `rest`, the results after `no memory`, has those of the repeated call or of the repeated row.

    In a repeated row the results of the reading, and `no memory` for its events or entries, may come
    first. The first `same` results are as with ample memory.
    """
    if rest in (results, results[same:]):
        return True
    return rest[2:] == results and rest[0] in results[same:] and rest[1] == NO_MEMORY


def is_only_refused(results, same, rest):
    """Returns whether `rest` has only `no memory`, and perhaps the results of the reading first."""
    refused = rest[1:] if rest[:1] and rest[0] in results[same:] else rest
    found = [NO_MEMORY_RESULT.fullmatch(it) for it in refused]
    return bool(found) and all(it and is_in_place(it, [], results) for it in found)


def kind_of(ample, got):
    """Compares a row with that of the run with ample memory.

    Returns `same`; `repeated` if a call failed and succeeded when it, or the row, was repeated;
    `refused` if it never succeeded; `wrong` for any other row.
    """
    (name, results), (got_name, got_results) = row_of(ample), row_of(got)
    if got == ample:
        return "same"
    same = next((at for at, (one, other) in enumerate(zip(results, got_results)) if one != other), min(len(results), len(got_results)))
    found = NO_MEMORY_RESULT.fullmatch(b"".join(got_results[same : same + 1]))
    if got_name != name or same == len(results) or not found or not is_in_place(found, results[:same], results[same:]):
        return "wrong"
    rest = got_results[same + 1 :]
    if is_repeated(results, same, rest):
        return "repeated"
    return "refused" if is_only_refused(results, same, rest) else "wrong"


def kinds_of(ample, got):
    """Returns the name and the kind of each row; None if the run has other rows, or ended differently."""
    lines, got_lines = ample[1].splitlines(), got[1].splitlines()
    if got[0] != 0 or got[2] != b"" or len(lines) != len(got_lines) or not got[1].endswith(b"\n"):
        return None
    return [(row_of(one)[0], kind_of(one, other)) for one, other in zip(lines, got_lines)]


def is_one_repeated(rows):
    """Returns whether at most one row differs, and has a repeated call, as after one failed allocation."""
    return [kind for _, kind in rows if kind != "same"] in ([], ["repeated"])


def are_all_refused(rows, allocating):
    """Returns whether, from the first row that differs, each row that allocates is refused."""
    first = next((at for at, (_, kind) in enumerate(rows) if kind != "same"), len(rows))
    return all(kind == ("refused" if name in allocating else "same") for name, kind in rows[first:])


def are_right(rows, refuses_all, allocating):
    """Returns whether the rows of a run are right."""
    if rows is None:
        return False
    return are_all_refused(rows, allocating) if refuses_all else is_one_repeated(rows)


def positions_by_row(outcomes):
    """Returns, for each row, the positions of `no memory` in the runs in which one allocation fails, in their order."""
    positions = {}
    for (_, refuses_all), got in sorted(outcomes.items()):
        for name, results in [] if refuses_all else map(row_of, got[1].splitlines()):
            found = next((it for it in map(NO_MEMORY_RESULT.fullmatch, results) if it and it.lastgroup), None)
            if found:
                positions.setdefault((name, found.lastgroup), []).append(int(found[found.lastgroup]))
    return positions


def wrong_positions(positions):
    """Describes the rows in which a later allocation fails at an earlier position."""
    wrong = [f"worked examples: {name.decode()}: no memory at {at}" for (name, _), at in positions.items() if at != sorted(at)]
    return wrong if positions else ["worked examples: no row reports a position of `no memory`"]


def try_examples(program, room, pool):
    """Makes every allocation of the worked examples fail in turn."""
    trial = Trial("worked examples", lambda *failed: program.run([], b"", *failed), room)
    rows = {it: kinds_of(trial.ample, got) for it, got in trial.run_all(pool, trial.total, trial.total).items()}
    allocating = {name for kinds in rows.values() for name, kind in kinds or [] if kind != "same"}
    positions = positions_by_row(trial.outcomes)
    print(
        f"worked examples: {len(trial.ample[1].splitlines())} rows, {len(allocating)} allocate, {len({it for it, _ in positions})}"
        f" report a position, {trial.total} allocations"
    )
    return [trial.row(*it) for it, kinds in rows.items() if not are_right(kinds, it[1], allocating)] + wrong_positions(positions)


def lists_of(moves):
    """Returns the lists of moves, each with its last line."""
    lists = [b""]
    for line in moves.splitlines(keepends=True):
        lists[-1] += line
        if line == b"end\n":
            lists.append(b"")
    return lists[:-1]


def worlds_left_out(program, lists):
    """Returns the worlds of the lists without one line, by the number of the list and the line."""
    left_out = [
        (number, line, b"".join(lines[:at] + lines[at + 1 :]))
        for number, lines in enumerate(it.splitlines(keepends=True) for it in lists)
        for at, line in enumerate(lines[:-1])
    ]
    printed = program.run([], b"".join(it for _, _, it in left_out))[1].splitlines()
    worlds = {}
    for (number, line, _), world in zip(left_out, printed, strict=True):
        worlds.setdefault((number, line[:-1]), []).append(world)
    return worlds


def are_worlds_right(left_out, ample, got):
    """Returns whether each list of moves leads to its world, or one of them to `no memory`.

    If the allocation is for a line, that line is not a move, and the world is that of the other
    lines. If it is for the input or the list, the program ends.
    """
    worlds, lines = ample[1].splitlines(), got[1].splitlines()
    if got[0] != 0:
        return got[0] == 1 and got[2] == b"Error: Kind(OutOfMemory)\n" and len(lines) < len(worlds) and lines == worlds[: len(lines)]
    dropped = [(at, it.removeprefix(NO_MOVE)) for at, it in enumerate(lines) if it.startswith(NO_MOVE)]
    printed = [it for it in lines if not it.startswith(NO_MOVE)]
    if got[2] != b"" or got[1][-1:] != b"\n" or len(printed) != len(worlds) or len(dropped) > 1:
        return False
    differing = [(at, it) for at, (world, it) in enumerate(zip(worlds, printed)) if it != world]
    if not dropped:
        return not differing or len(differing) == 1 and differing[0][1] == NO_MEMORY
    at = dropped[0][0]
    return all(it[0] == at for it in differing) and printed[at] in left_out.get(dropped[0], ())


def try_worlds(program, room, pool):
    """Makes each allocation of some lists of moves fail alone. The same lists come twice, so that each is repeated."""
    with open(f"{TOP}/crates/mes_double_worlds/stdin", "rb") as it:
        lists = lists_of(it.read()) * 2
    trial = Trial("lists of moves", lambda *failed: program.run([], b"".join(lists), *failed), room)
    if trial.ample[0] != 0 or trial.ample[2] != b"" or NO_MEMORY in trial.ample[1] or len(trial.ample[1].splitlines()) != len(lists):
        return [trial.ample_row()]
    left_out = worlds_left_out(program, lists)
    outcomes = trial.run_all(pool, trial.total, 0)
    count = sum(NO_MEMORY in got[1].splitlines() for got in outcomes.values())
    print(f"lists of moves: {len(lists)}, {trial.total} allocations, {count} of them for a world")
    wrong = [trial.row(*it) for it, got in outcomes.items() if not are_worlds_right(left_out, trial.ample, got)]
    return wrong + ([] if count else ["lists of moves: no world has `no memory`"])


def build_library(room):
    """Builds the library that makes allocations fail, and returns its path."""
    library = f"{room}/refuse.so"
    source = f"{os.path.dirname(os.path.abspath(__file__))}/refuse.c"
    subprocess.run(["cc", "-O1", "-shared", "-fPIC", "-fno-builtin", "-o", library, source, "-ldl"], check=True)
    return library


def cases_of(room, pool, program, examples=None, worlds=None):
    """Yields the name of each case, and the function that returns the rows that are wrong."""
    of = functools.partial
    for name, args, data in CASES:
        yield f"{' '.join(args[:3])} of {name}", of(try_case, program, room, pool, name, args, data)
    ports = free_ports()
    for name, data, calls in SERVED:
        yield f"serve of {name}", of(try_served, program, room, pool, ports, name, data, calls)
    for name, data in STREAMS.items():
        yield f"subscribe to {name}", of(try_subscribed, program, room, pool, name, data)
    yield "check stores no bytes of a record", of(try_spaces, program, room, pool)
    yield "check reports the byte of a failed allocation", of(try_long_text, program, room, pool)
    yield "show reports the event of a failed allocation", of(try_lines, program, room, pool)
    yield "replay reports the entry of a failed allocation", of(try_replay, program, room, pool, LOG)
    yield "replay reports the entry, with a disconnection", of(try_replay, program, room, pool, DISCONNECTED_LOG)
    yield "check allocates nothing for the size of a record", of(try_sizes, program, room)
    if examples:
        yield "worked examples", of(try_examples, examples, room, pool)
    if worlds:
        yield "lists of moves", of(try_worlds, worlds, room, pool)


def main():
    made = parser(__doc__, 'tests/no_memory.py $(tools/built checked) -k "check of"', "program")
    made.add_argument("examples", nargs="?", help="the built program of crates/mesosev_examples")
    made.add_argument("worlds", nargs="?", help="the built program of crates/mes_double_worlds")
    arguments = made.parse_args()
    tests = Cases(arguments.word)
    if shutil.which("cc") is None:
        tests.skip("failed allocations", "there is no C compiler (cc)")
        return tests.end()
    with tempfile.TemporaryDirectory() as room, concurrent.futures.ThreadPoolExecutor(os.cpu_count()) as pool:
        library = build_library(room)
        programs = [Program(it, library) for it in (arguments.program, arguments.examples, arguments.worlds) if it]
        for name, case in cases_of(room, pool, *programs):
            if tests.is_chosen(name):
                wrong = case()
                tests.count(name, not wrong, "".join(f"\n  {it}" for it in wrong[:5]))
    return tests.end()


if __name__ == "__main__":
    sys.exit(main())
