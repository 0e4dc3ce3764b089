#!/usr/bin/env python3
"""Builds the C library by lib/build, and compares its results with the output of the built command.

Builds and runs tests/c_reader.c and tests/c_session.c (also under valgrind and with the address
sanitizer), examples/reader.c, .cc and .go, and the tests and schedulers of lib/mesosev.hpp,
lib/go/mesosev, lib/rust and lib/mesosev.py. Parts whose compiler is not installed are left out, with a
line, and valgrind if it is not installed. PROGRAM is the proved command by default. -k takes one of
`symbols`, `readers`, `sessions`, `examples`, `pages`, `cpp`, `go`, `rust` and `python`.
"""
import itertools
import json
import os
import re
import shutil
import subprocess
import sys
import tempfile

sys.dont_write_bytecode = True
import support
from languages import CXX, VALGRIND, Languages
from support import TOP, chunked, parser, record

NAMES = {
    "mes_version",
    "mes_check",
    "mes_call",
    "mes_decoder_new",
    "mes_decoder_next",
    "mes_decoder_many",
    "mes_decoder_finish",
    "mes_decoder_free",
    *(f"mes_session_{it}" for it in "new free heard heard_lines said check subscribe acknowledge acknowledge_lines broken connected entries framework offer_count".split()),
    *(f"mes_session_{it}" for it in "offer_at offer owed_count owed_at".split()),
    *(f"mes_log_{it}" for it in "header event call broken replay".split()),
    "mes_write_event",
    "mes_write_chunk",
    "mes_fits",
}
DEFAULT, LARGEST = 4_194_304, 67_108_864
FRAMINGS = {0: [], 1: ["--chunked"]}
BEAT = support.BEAT.encode()
# 1,024 records of this event fill a piece of 65,536 bytes.
MANY, MANY_COUNT = b'{"type":"ERROR","error":{"message":"%s"}}' % (b"x" * 22), 5000


def example(name):
    with open(os.path.join(TOP, "examples", name), "rb") as file:
        return file.read()


# The framing, the limit and the bytes of streams: valid ones, and one for each fault of the bytes.
STREAMS = {
    "the example": (0, DEFAULT, example("stream.recordio")),
    "the example in chunks": (1, DEFAULT, example("stream.chunked")),
    "the broken example": (0, DEFAULT, example("broken.recordio")),
    "nothing": (0, DEFAULT, b""),
    "no events in chunks": (1, DEFAULT, b"0\r\n\r\n"),
    "bytes after the end": (1, DEFAULT, chunked(BEAT, 7) + b"HTTP"),
    "F1": (1, DEFAULT, b"x"),
    "F2": (1, DEFAULT, b"1;" + b" " * 300),
    "F3": (1, DEFAULT, b"1" * 17),
    "F4": (1, DEFAULT, b"1\r\n2x"),
    "F5": (1, DEFAULT, b"0\r\n" + b"a:b\r\n" * 1000),
    "F6": (1, DEFAULT, b"1\r\n2"),
    "F6 of no bytes": (1, DEFAULT, b""),
    "F7": (0, DEFAULT, BEAT + b"-"),
    "F7 in chunks": (1, DEFAULT, chunked(BEAT + b"-", 7)),
    "F8": (0, DEFAULT, b"0" * 21),
    "F9": (0, 19, BEAT),
    "F10": (0, DEFAULT, BEAT + BEAT[:-1]),
    "F10 in chunks": (1, DEFAULT, chunked(BEAT + BEAT[:-1], 7)),
    "F11": (0, DEFAULT, BEAT + record(b'{"type":"HEARTBEAT",}')),
    "F11 of no data": (0, DEFAULT, BEAT + b"0\n"),
    "F11 too deep": (0, DEFAULT, record(b"[" * 129)),
    "F12": (0, DEFAULT, record(b"{}")),
    "F12 at the root": (0, DEFAULT, BEAT + record(b"[]")),
    "another type": (0, DEFAULT, record(b'{"type":"INVERSE_OFFERS","x":1}') + BEAT),
    "a text that grows": (0, 98, record(b'{"type":"SUBSCRIBED","subscribed":{"framework_id":{"value":"F1"},"heartbeat_interval_seconds":15}}')),
}

CALLS = (
    b' {"framework_id" : {"value":"F1"}, "type" : "REVIVE"}',
    b'{"type":"SUBSCRIBE","subscribe":{"framework_info":{"user":"root","name":"n"}}}',
    b'{"type":"DECLINE","framework_id":{"value":"F1"},"decline":{"offer_ids":[{"value":"O1"}],"filters":{"refuse_seconds":5}}}',
)
BROKEN_CALLS = {
    b"": (11, "fault F11 Text record 1 byte 0 End after 0"),
    b"{]": (11, "fault F11 Text record 1 byte 1 Byte after 2"),
    b'{"type":"REVIVE"}': (12, "fault F12 Field record 1 framework_id Missing after 17"),
    b'{"type":"NONE","framework_id":{"value":"F1"}}': (12, "fault F12 Field record 1 type LeftOut after 45"),
}


OFFERED = (
    '{"id":{"value":"%s"},"framework_id":{"value":"F1"},"agent_id":{"value":"%s"},"hostname":"h",'
    '"resources":[{"name":"cpus","type":"SCALAR","scalar":{"value":1.0}}]}'
)
LAUNCHED = '{"name":"t","task_id":{"value":"%s"},"agent_id":{"value":"%s"},"resources":[{"name":"cpus","type":"SCALAR","scalar":{"value":%s}}]}'
KEY = '{"agent_id":{"value":"A1"},"task_id":{"value":"T1"},"uuid":"AAECAwQFBgcICQoLDA0ODw=="}'
UPDATE = '{"type":"UPDATE","update":{"status":{"task_id":{"value":"T1"},"state":"TASK_RUNNING","agent_id":{"value":"A1"},"uuid":"AAECAwQFBgcICQoLDA0ODw=="}}}'


def call_of(type, body, framework="F1"):
    return '{"type":"%s","framework_id":{"value":"%s"},"%s":%s}' % (type, framework, type.lower(), body)


def accept(offers, *tasks):
    ids = ",".join('{"value":"%s"}' % it for it in offers)
    launch = ',"operations":[{"type":"LAUNCH","launch":{"task_infos":[%s]}}]' % ",".join(tasks) if tasks else ""
    return call_of("ACCEPT", '{"offer_ids":[%s]%s}' % (ids, launch))


OFFERS = '{"type":"OFFERS","offers":{"offers":[%s]}}' % ",".join(OFFERED % it for it in (("O1", "A1"), ("O2", "A1"), ("O3", "A2")))
SUBSCRIBED = '{"type":"SUBSCRIBED","subscribed":{"framework_id":{"value":"F1"}}}'
OFFER, TASK = OFFERED % ("O1", "A1"), LAUNCHED % ("T1", "A1", "%s")
REVIVE = '{"type":"REVIVE","framework_id":{"value":"F1"}}'
SUBSCRIBE = '{"type":"SUBSCRIBE","framework_id":{"value":"F1"},"subscribe":{"framework_info":{"user":"root","name":"n","id":{"value":"F1"}}}}'
# The lines of tests/c_session.c, each with the status and the text that it prints: each refusal, fault and getter.
SESSION = (
    ("I", "0 0 0 0 0"),
    ("F", "37 "),
    ("O 0", "37 "),
    ("N O1", "37 "),
    ("U 0", "37 "),
    (f"C {REVIVE}", "201 refused S1 NotSubscribed record 1"),
    ("E {", "11 fault F11 Text record 1 byte 1 End after 1"),
    ('E {"type":"OFFERS"}', "12 fault F12 Field record 1 offers Missing after 17"),
    ('C {"type":"NONE","framework_id":{"value":"F1"}}', "12 fault F12 Field record 1 type LeftOut after 45"),
    (f"E {SUBSCRIBED}", "0 "),
    (f"E {OFFERS}", "0 "),
    (f"E {UPDATE}", "0 "),
    ("I", "0 1 3 3 1"),
    ("F", "0 F1"),
    ("O 0", "0 " + OFFERED % ("O1", "A1")),
    ("N O3", "0 " + OFFERED % ("O3", "A2")),
    ("N O4", "37 "),
    ("O 3", "37 "),
    ("U 0", f"0 {KEY}"),
    (f"C {accept(('O1', 'O1'))}", "202 refused S2 NamedTwice record 4"),
    (f"C {accept(('O1', 'O9'))}", "203 refused S3 NoSuchOffer record 4 index 1"),
    (f"C {accept(('O1', 'O3'))}", "204 refused S4 TwoAgents record 4"),
    (f"C {accept(('O1',), LAUNCHED % ('T1', 'A1', '1.0'), LAUNCHED % ('T2', 'A2', '1.0'))}", "205 refused S5 WrongAgent record 4 task 1"),
    (f"K {accept(('O1',), LAUNCHED % ('T1', 'A1', '1.001'))}", "206 refused S6 Exceeds record 4 task 0 resource 0"),
    (f"C {accept(('O1',), LAUNCHED % ('T1', 'A1', '1.001'))}", "206 refused S6 Exceeds record 4 task 0 resource 0"),
    (f"C {call_of('ACKNOWLEDGE', KEY.replace('T1', 'T2'))}", "207 refused S7 NotOwed record 4"),
    (f"K {accept(('O1',), LAUNCHED % ('T1', 'A1', '1.0'))}", f"0 {accept(('O1',), LAUNCHED % ('T1', 'A1', '1.0'))}"),
    ("I", "0 1 3 3 1"),
    (f"C  {accept(('O1',), LAUNCHED % ('T1', 'A1', '1'))}", f"0 {accept(('O1',), LAUNCHED % ('T1', 'A1', '1.0'))}"),
    (f"C {call_of('ACKNOWLEDGE', KEY)}", f"0 {call_of('ACKNOWLEDGE', KEY)}"),
    ("I", "0 1 5 2 0"),
    ("A 0", "37 "),
    (f"E {UPDATE}", "0 "),
    (f"E {UPDATE.replace('T1', 'T2')}", "0 "),
    ("A 2", "37 "),
    ("A 1", f"0 {call_of('ACKNOWLEDGE', KEY.replace('T1', 'T2'))}"),
    ("A 0", f"0 {call_of('ACKNOWLEDGE', KEY)}"),
    ("I", "0 1 9 2 0"),
    (f"L {UPDATE}|@||{UPDATE.replace('T1', 'T2')}@|{UPDATE.replace('T1', 'T3')}", "0 3 "),
    ("M", "0 " + "".join(call_of("ACKNOWLEDGE", KEY.replace("T1", it)) + "|" for it in ("T1", "T2", "T3"))),
    ("M", "0 "),
    ("L |@|", "0 0 "),
    ("L", "0 0 "),
    ("I", "0 1 15 2 0"),
    (f"L {UPDATE}||{{|{UPDATE}", "11 1 fault F11 Text record 1 byte 1 End after 1"),
    (f"L {UPDATE}|@", "11 1 fault F11 Text record 1 byte 1 End after 1"),
    ("M", f"0 {call_of('ACKNOWLEDGE', KEY)}|"),
    ("I", "0 1 18 2 0"),
    (f"E {UPDATE}", "0 "),
    ("B", "0 "),
    ("M", "201 refused S1 NotSubscribed record 21"),
    ("A 0", "201 refused S1 NotSubscribed record 21"),
    ("I", "0 0 20 0 1"),
    ('S {"user":"root","name":"n"}', f"0 {SUBSCRIBE}"),
    ('S {"user":1}', "12 fault F12 Field record 1 user WrongKind after 10"),
    (f"C {REVIVE}", "201 refused S1 NotSubscribed record 22"),
    (f"E {SUBSCRIBED}", "0 "),
    (f"C {REVIVE}", f"0 {REVIVE}"),
    ("I", "0 1 23 0 1"),
    ('W {"type" : "HEARTBEAT"}', '0 20|{"type":"HEARTBEAT"}'),
    ("W {}", "12 fault F12 Field record 1 type Missing after 2"),
    ("H 0123456789abcdef", "0 10||0123456789abcdef||"),
    ("H", "0 0||||"),
    (f"T [{OFFER}] [{TASK % '0.5'},{TASK % '0.5'}]", "0 "),
    (f"T [{OFFER}] [{TASK % '0.5'},{TASK % '0.501'}]", "206 refused S6 Exceeds record 1 task 0 resource 0"),
    ("T [] []", "0 "),
    ("T {} []", "12 fault F12 Field record 1 . WrongKind after 2"),
    ("T [] [1]", "12 fault F12 Field record 2 [0] WrongKind after 4"),
    ("T [", "11 fault F11 Text record 1 byte 1 End after 1"),
    ("T []", "11 fault F11 Text record 2 byte 0 End after 0"),
    ("I", "0 1 23 0 1"),
)


class Tests(Languages):
    def run_command(self, subcommand, framing, limit, data):
        """Runs the command on a stream. Returns standard output, and the last line of it or of standard error."""
        ran = self.run([self.program, subcommand, *FRAMINGS[framing], "--limit", str(limit)], data)
        return ran.stdout, (ran.stderr or ran.stdout).decode().rstrip("\n").rsplit("\n", 1)[-1]

    def build(self):
        ran = self.run([f"{TOP}/lib/build", "--prefix", self.prefix])
        self.expect("lib/build", 0, ran.returncode)
        if ran.returncode:
            print(ran.stderr.decode())
        return ran.returncode == 0

    def flags(self, *args):
        return self.run(["pkg-config", *args, "mesosev"]).stdout.decode().split()

    def symbols(self):
        for name, args in (("libmesosev.so", ["nm", "-D"]), ("libmesosev.a", ["nm"])):
            listed = self.run([*args, "--defined-only", "--extern-only", f"{self.prefix}/lib/{name}"]).stdout.decode()
            self.expect(f"the exported names of {name}", NAMES, {line.split()[-1] for line in listed.splitlines() if len(line.split()) == 3})

    def streams(self, reader, how, pieces, rooms=(0, 1, 3, 1000)):
        for name, (framing, limit, data) in STREAMS.items():
            line = self.run_command("check", framing, limit, data)[1]
            for piece, room in itertools.product(pieces, rooms):
                ran = self.run([*reader, "stream", str(framing), str(limit), str(piece), str(room)], data)
                case = f"{name}, pieces of {piece} bytes, room for {room}{how}"
                outcome = (ran.stderr.decode().strip(), ran.returncode)
                self.expect(case, (line, 0 if line.startswith("events ") else 1), outcome, data)
                self.texts(case, framing, limit, data, line, ran.stdout)

    def texts(self, name, framing, limit, data, line, texts):
        """Checks that the texts are those that convert writes, and as many as show has events."""
        shown = self.run_command("show", framing, limit, data)[0].decode()
        count = len(re.findall(r"(?m)^\d+ ", shown))
        self.expect(f"{name}: the number of texts", count, len(split(texts)), data)
        if line.startswith("events ") and framing == 0 and limit == DEFAULT:
            self.expect(f"{name}: the texts", self.run_command("convert", framing, limit, data)[0], texts)
        again = self.run_command("convert", 0, LARGEST, texts)[0]
        self.expect(f"{name}: the texts are canonical", again, texts)

    def lines(self, reader):
        for name, (framing, limit, data) in STREAMS.items():
            line = self.run_command("check", framing, limit, data)[1]
            fault = re.match(r"fault F(\d+) ", line)
            counted = re.match(r"events (\d+) bytes (\d+)", line)
            count = len(re.findall(r"(?m)^\d+ ", self.run_command("show", framing, limit, data)[0].decode()))
            used = counted[2] if counted else line.rsplit(" ", 1)[-1]
            for room in (0, 1, 10, 641):
                ran = self.run([*reader, "check", str(framing), str(limit), str(room)], data)
                expected = f"{fault[1] if fault else 0} {count} {used} {line[: max(room - 1, 0)]}\n"
                self.expect(f"check of {name}, room for {room}", expected, ran.stdout.decode(), data)

    def calls(self, reader):
        for data in CALLS:
            ran = self.run([*reader, "call", "1000"], data)
            status, size, text = ran.stdout.decode().rstrip("\n").split(" ", 2)
            self.expect(f"call {data}", ("0", str(len(text)), json.loads(data)), (status, size, json.loads(text.replace("5.0", "5"))))
            self.expect(f"call {data}: the text is canonical", ran.stdout, self.run([*reader, "call", "1000"], text.encode()).stdout)
            for room in (0, 1, 20):
                got = self.run([*reader, "call", str(room)], data).stdout.decode()
                self.expect(f"call {data}, room for {room}", f"0 {size} {text[: max(room - 1, 0)]}\n", got)
        for data, (number, line) in BROKEN_CALLS.items():
            self.expect(f"call {data}", f"{number} {len(line)} {line}\n", self.run([*reader, "call", "1000"], data).stdout.decode())

    def cuts(self, reader, how, step, rooms=(0, 1, 3, 1000)):
        for (name, (framing, limit, data)), room in itertools.product(STREAMS.items(), rooms):
            if len(data) > 1:
                ran = self.run([*reader, "cuts", str(framing), str(limit), str(step), str(room)], data)
                line = ran.stdout.decode().strip().split(": ", 1)[-1] + ran.stderr.decode()
                self.expect(f"each cut of {name}, room for {room}{how}", self.run_command("check", framing, limit, data)[1], line, data)

    def others(self, reader, how):
        data = example("stream.recordio")
        self.expect(f"a thousand decoders{how}", "1000 decoders\n", self.run([*reader, "handles", "1000"], data).stdout.decode())
        ran = self.run([*reader, "misuse"])
        self.expect(f"misuse{how}", "all misuse rejected\n", ran.stdout.decode() + ran.stderr.decode())
        for room in (0, 4):
            ran = self.run([*reader, "stream", "0", str(DEFAULT), "512", str(room), "1"], data)
            self.expect(f"without texts, room for {room}{how}", ("events 13 bytes 4250\n", b"0\n" * 13), (ran.stderr.decode(), ran.stdout))

    def readers(self):
        command = [os.environ.get("CC", "cc"), "-std=c11", "-O2", "-g", "-Wall", "-Wextra", f"{TOP}/tests/c_reader.c"]
        static = self.compile("static_reader", [*command, f"-I{self.prefix}/include", f"{self.prefix}/lib/libmesosev.a"])
        shared = self.compile("shared_reader", [*command, *self.flags("--cflags", "--libs")])
        if static:
            self.streams([static], "", (1, 7, 512, 100_000))
            self.lines([static])
            self.calls([static])
            self.cuts([static], "", 1)
            self.others([static], "")
        if shared:
            self.streams([shared], " of the shared library", (512,))
        wraps = ["-DREFUSING", "-Wl,--wrap=malloc,--wrap=realloc"]
        refusing = self.compile("refusing_reader", [*command, *wraps, f"-I{self.prefix}/include", f"{self.prefix}/lib/libmesosev.a"])
        if refusing:
            for name, room in itertools.product(("the example", "the example in chunks", "the broken example"), (0, 1, 3, 1000)):
                framing, _, data = STREAMS[name]
                ran = self.run([refusing, "refuse", str(framing), str(room)], data)
                self.expect(f"failed allocations, {name}, room for {room}", "each allocation has failed\n", ran.stdout.decode() + ran.stderr.decode())
        if static and shutil.which("valgrind"):
            self.streams([*VALGRIND, static], " under valgrind", (64,), (0, 2))
            self.cuts([*VALGRIND, static], " under valgrind", 97, (0, 2))
            self.others([*VALGRIND, static], " under valgrind")
        sanitized = self.compile_sanitized("reader", command)
        if sanitized:
            self.streams([sanitized], " under the address sanitizer", (64,), (0, 2))
            self.cuts([sanitized], " under the address sanitizer", 97, (0, 2))
            self.others([sanitized], " under the address sanitizer")

    def sessions(self):
        command = [os.environ.get("CC", "cc"), "-std=c11", "-D_DEFAULT_SOURCE", "-O2", "-g", "-Wall", "-Wextra", f"{TOP}/tests/c_session.c"]
        static = self.compile("static_session", [*command, f"-I{self.prefix}/include", f"{self.prefix}/lib/libmesosev.a"])
        script = "".join(f"{line}\n" for line, _ in SESSION).encode()
        if not static:
            return
        for room in (1, 2, 64, 641, 100_000):
            self.session([static, str(room), "1"], script, f", room for {room}")
        self.session([static, "1", "1000"], script, ", the first of a thousand")
        if shutil.which("valgrind"):
            self.session([*VALGRIND, static, "1", "30"], script, " under valgrind")
        sanitized = self.compile_sanitized("session", command)
        if sanitized:
            self.session([sanitized, "1", "1000"], script, " under the address sanitizer")
        self.failed_sessions(static, script)

    def failed_sessions(self, static, script):
        """Makes each allocation of a session fail in turn. No failure may change the session, and S8 must occur."""
        library, seen, at = self.build_refuse(), set(), 0
        while at < 2000:
            at += 1
            environment = dict(self.environment, LD_PRELOAD=library, REFUSE_AT=str(at), REFUSE_COUNT=os.path.join(self.folder, "count"))
            ran = subprocess.run([static, "100000", "1", "bare"], input=script, stdout=subprocess.PIPE, env=environment)
            seen |= {line.split(b" ")[1] for line in ran.stdout.splitlines() if line.count(b" ") > 1}
            self.expect(f"a session, allocation {at} fails", True, ran.returncode in (0, 2))
            with open(os.path.join(self.folder, "count")) as file:
                if at > int(file.read()):
                    break
        self.expect("a session, allocations fail: F13 and S8 occur", True, {b"13", b"208"} <= seen)

    def session(self, command, script, how):
        ran = self.run(command, script)
        printed = ran.stdout.decode().split("\n")[:-1]
        self.expect(f"sessions{how}: the log leads to the session", (0, ""), (ran.returncode, ran.stderr.decode()))
        for number, (line, expected) in enumerate(SESSION):
            self.expect(f"session line {number}, {line}{how}", f"{line[0]} {expected}", printed[number] if number < len(printed) else None)

    def pages(self):
        """Checks that docs/library/c.md has the example unchanged."""
        page, code = (open(f"{TOP}/{name}", encoding="utf-8").read() for name in ("docs/library/c.md", "examples/reader.c"))
        self.expect("docs/library/c.md has examples/reader.c", True, f"```c\n{code}```\n" in page)

    def examples(self):
        data, broken = example("stream.recordio"), example("broken.recordio")
        expected = [text + b"\n" for text in split(self.run_command("convert", 0, DEFAULT, data)[0])]
        fault = self.run_command("check", 0, DEFAULT, broken)[1].encode() + b"\n"
        flags = self.flags("--cflags", "--libs")
        builds = {
            "reader.c": [os.environ.get("CC", "cc"), "-Wall", "-Wextra"],
            "reader.cc": [CXX, "-std=c++17", "-Wall", "-Wextra"],
            "reader.go": ["go", "build"],
        }
        for name, command in builds.items():
            source = f"{TOP}/examples/{name}"
            if not shutil.which(command[0]):
                continue
            is_go = command[0] == "go"
            path = self.compile_go(source) if is_go else self.compile(name.replace(".", "_"), [*command, source, *flags])
            if path:
                self.example(name, path, b"".join(expected), 0, data)
                self.example(f"{name}, broken", path, b"".join(expected[:5]) + fault, 1, broken)
                # More events in a piece than the room for events; the last room is full when the piece is used up.
                self.example(f"{name}, many events", path, (MANY + b"\n") * MANY_COUNT, 0, record(MANY) * MANY_COUNT)
                self.unreadable(name, path)
                if not is_go:
                    self.failed_allocations(name, path, expected, data)

    def example(self, name, path, expected, status, data):
        ran = self.run([path], data)
        self.expect(f"examples/{name}", (status, expected), (ran.returncode, ran.stdout), data)

    def unreadable(self, name, path):
        """Checks that a failed read is not treated as the end of the stream."""
        folder = os.open(self.folder, os.O_RDONLY)
        ran = subprocess.run([path], stdin=folder, stdout=subprocess.PIPE, env=self.environment)
        os.close(folder)
        self.expect(f"examples/{name}, a failed read", (1, b""), (ran.returncode, ran.stdout))

    def failed_allocations(self, name, path, expected, data):
        """Makes each allocation fail in turn. Each event must have its line or an empty one, up to the end of the
        stream or fault F13."""
        library, empty = self.build_refuse(), 0
        for at in range(1, 120):
            environment = dict(self.environment, LD_PRELOAD=library, REFUSE_AT=str(at))
            ran = subprocess.run([path], input=data, stdout=subprocess.PIPE, stderr=subprocess.PIPE, env=environment)
            lines = ran.stdout.splitlines(keepends=True)
            empty += lines.count(b"\n")
            if ran.returncode == 0:
                is_good = len(lines) == len(expected) and all(line in (b"\n", text) for line, text in zip(lines, expected))
            else:
                # The line of the fault, empty if it could not be allocated; or the program could not start.
                last = lines[-1] if lines else b""
                is_good = ran.returncode in (2, -6, 127) or last == b"\n" or last.startswith(b"fault F13 NoMemory after ")
            case = f"examples/{name}, allocation {at} fails"
            self.count(case, is_good, f"\n  expected: the lines, or fault F13\n  got:      status {ran.returncode}, {lines[-3:]}")
        self.expect(f"examples/{name}, some events have no text", True, empty > 0)

    def build_refuse(self):
        """Builds the library that makes allocations fail. Returns its path."""
        library = os.path.join(self.folder, "refuse.so")
        self.run([os.environ.get("CC", "cc"), "-shared", "-fPIC", "-o", library, f"{TOP}/tests/refuse.c"])
        return library

    def compile_go(self, source):
        path = os.path.join(self.folder, "reader_go")
        # Go's default cache ignores the output of pkg-config, and would link the library of an earlier run.
        self.environment["GOCACHE"] = os.path.join(self.folder, "go_cache")
        ran = self.run(["go", "build", "-o", path, source])
        self.expect("building reader.go", 0, ran.returncode)
        return path if ran.returncode == 0 else None

    def python(self):
        self.environment.update(MESOSEV_LIBRARY=f"{self.prefix}/lib/libmesosev.so", MESOSEV=self.program)
        ran = subprocess.run([sys.executable, "-B", "-m", "unittest", "test_mesosev"], cwd=f"{TOP}/lib", env=self.environment, stderr=subprocess.PIPE)
        printed = ran.stderr.decode()
        count = int(re.search(r"Ran (\d+) test", printed)[1]) if "Ran " in printed else 1
        bad = sum(map(int, re.findall(r"(?:failures|errors)=(\d+)", printed))) if "Ran " in printed else 1
        if bad:
            print(printed)
        self.passed += count - bad
        self.failed += bad
        ran = self.run([sys.executable, "-B", f"{TOP}/tests/sessions.py", self.program])
        self.expect("tests/sessions.py", (0, ""), (ran.returncode, ran.stderr.decode()), ran.stdout.decode())
        ran = self.run([sys.executable, "-B", f"{TOP}/tests/connected.py", self.program])
        self.expect("tests/connected.py", (0, ""), (ran.returncode, ran.stderr.decode()), ran.stdout.decode())


def split(texts):
    """Returns the data of the records."""
    found, at = [], 0
    while at < len(texts):
        end = texts.index(b"\n", at)
        size = int(texts[at:end])
        found.append(texts[end + 1 : end + 1 + size])
        at = end + 1 + size
    return found


def main():
    made = parser(__doc__, "tests/c_library.py -k examples")
    made.add_argument("program", nargs="?", default=f"{TOP}/crates/mesosev/out/mesosev", help="(default: %(default)s)")
    arguments = made.parse_args()
    with tempfile.TemporaryDirectory() as folder:
        tests = Tests(os.path.abspath(arguments.program), folder, arguments.word)
        if shutil.which(os.environ.get("CC", "cc")) and tests.build():
            tests.run_chosen(tests.symbols, tests.readers, tests.sessions, tests.examples, tests.pages, tests.cpp, tests.go, tests.rust, tests.python)
    return tests.end()


if __name__ == "__main__":
    sys.exit(main())
