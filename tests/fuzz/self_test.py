#!/usr/bin/env python3
"""Tests `run.py --hours` with small programs that fail on purpose: its corpus, its changes of inputs, and its shrinking.

A case is a check.
"""
import contextlib
import functools
import io
import os
import random
import re
import shutil
import signal
import subprocess
import sys
import tempfile
import time
from types import SimpleNamespace

sys.dont_write_bytecode = True
sys.path.insert(0, os.path.dirname(os.path.dirname(os.path.abspath(__file__))))
import hours
import inputs
import mutate
import parts
import run
import shapes
from corpus import Corpus, default_folder
from runs import Difference, Hang, Program, Ran
from shrink import shrunk, shrunk_input, shrunk_values
from support import Cases, parser, record

# A program that prints valid lines for any input. It ends by a signal if the input has the first bytes, and prints
# another number if the input has the second bytes.
FAKE = """#!{python} -IS
import os, signal, sys
data = sys.stdin.buffer.read()
if {trap!r} in data:
    os.kill(os.getpid(), signal.SIGILL)
if sys.argv[1] in ("check", "show"):
    print("calls" if "--calls" in sys.argv else "events", int({other!r} in data), "bytes", len(data))
if sys.argv[1] == "replay":
    print("entries 0\\nframework -")
"""
# Bytes that almost every input has, and bytes that no input has.
COMMON, NEVER = b"ype", b"these bytes are in no input"
PROPERTY = "whole against pieces"


def fake(folder, name, trap=NEVER, other=NEVER):
    """Writes such a program, and returns its path."""
    return script(folder, name, FAKE.format(python=sys.executable, trap=trap, other=other))


def script(folder, name, text):
    path = os.path.join(folder, name)
    with open(path, "w", encoding="ascii") as file:
        file.write(text)
    os.chmod(path, 0o755)
    return path


def begin(folder, *args):
    """Starts run.py with one property. It writes files in this folder only."""
    command = [sys.executable, run.__file__, *args, "-k", PROPERTY, "--corpus", os.path.join(folder, "corpus")]
    environment = {**os.environ, "TMPDIR": folder}
    return subprocess.Popen(command, stdout=subprocess.PIPE, stderr=subprocess.PIPE, text=True, env=environment)


def stored(out):
    """Returns the bytes of each input that run.py has stored."""
    found = []
    for path in re.findall(r"^  stored as (.*)$", out, re.MULTILINE):
        with open(path, "rb") as file:
            found.append(file.read())
    return found


# ---- shrinking


def shrinking_of_bytes(tests):
    tests.expect("shrunk bytes", b"ac", shrunk(b"xxxaxxxxbxxxxxcx", lambda data: b"a" in data and b"c" in data))
    tests.expect("a shrunk list", [3, 9], shrunk(list(range(20)), lambda some: {3, 9} <= set(some)))
    tests.expect("bytes that all fail", b"", shrunk(b"abc", lambda _: True))
    tests.expect("bytes that all are needed", b"abc", shrunk(b"abc", lambda data: data == b"abc"))


def shrinking_of_inputs(tests):
    texts = [b'{"type":"HEARTBEAT"}', b'{"type":"ERROR","error":{"message":"m"}}', b'{"type":"OTHER"}']

    def fails(given):
        # Only a whole stream fails, as one in which a record is decoded.
        records = parts.split(given.kind, given.data)
        return bool(records) and any(b"ERR" in text and b"m" in text for text in records)

    for kind, smallest in (("stream", b"4\nERRm"), ("chunked", b"6\r\n4\nERRm\r\n0\r\n"), ("lines", b"ERRm")):
        given = inputs.Input(kind, parts.join(kind, texts), 3)
        found = shrunk_input(given, fails)
        tests.expect(f"a shrunk input of kind {kind}", (kind, smallest, None), (*found[:2], found.count))
    requests = inputs.Input("request", [(b"GET", None), (b"xxKxx", "KILL"), (b"POST", "REVIVE"), (b"yyLyy", "KILL")], None)
    found = shrunk_input(requests, lambda given: {b"K", b"L"} <= {data[len(data) // 2 :][:1] for data, _ in given.data})
    tests.expect("shrunk requests", [(b"K", None), (b"L", None)], found.data)
    found = shrunk_input(requests, lambda _: True)
    tests.expect("requests that all fail", [(b"", None)], found.data)
    valid = inputs.Input("stream", record(texts[0]), 1)
    tests.expect("an input that fails only because it is valid", valid, shrunk_input(valid, lambda given: given.count == 1))


def manners(tests):
    first, second = (shapes.manner_of(Difference("", None, f"['show', '--limit', '{size}'] of b'{size}'", (size, Ran(out, b"", 1))))
                     for size, out in ((20, b"fault F9 RecordTooLarge after 30\n"), (400, b"fault F9 RecordTooLarge after 4\n")))
    tests.expect("the manner of a failure has no numbers", first, second)
    other = shapes.manner_of(Difference("", None, "['show', '--limit', '20'] of b''", (20, Ran(b"events 1 bytes 1\n", b"", 1))))
    tests.expect("another line is another manner", False, first == other)


# ---- the corpus


def the_corpus(tests):
    with tempfile.TemporaryDirectory(prefix="mesosev-self-test-") as folder:
        corpus = Corpus(folder)
        one, two, three = (f"{first}-{'a' * 20}" for first in ("F11", "S2", "none"))
        for shape, data in ((one, b"1234"), (one, b"123"), (one, b"xyz"), (two, b"123"), (three, b"")):
            corpus.offer("relog twice", "log", shape, data)
        names = {f"relog-twice.log.{shape}": data for shape, data in ((one, b"123"), (two, b"123"), (three, b""))}
        tests.expect("the shortest input of each shape", names, corpus.inputs)
        tests.expect("the counts of the corpus", "corpus 2 inputs of 3 bytes, 3 shapes (3 new, 1 shorter)", str(corpus))
        script(folder, "README.md", "no input")
        again = Corpus(folder)
        tests.expect("the corpus that is read again", names, again.inputs)
        tests.expect("the shapes without a fault of bytes or texts", [f"relog-twice.log.{shape}" for shape in (two, three)], again.whole["log"])
        tests.expect("its counts", "corpus 2 inputs of 3 bytes, 3 shapes (0 new, 0 shorter)", str(again))
        tests.expect("a kind without inputs", None, again.choose(random.Random(1), "stream"))


def the_default_folder(tests):
    before = dict(os.environ)
    try:
        for cache, expected in (("/c", "/c/mesosev-fuzz"), ("c", "/h/.cache/mesosev-fuzz"), ("", "/h/.cache/mesosev-fuzz")):
            os.environ.update(XDG_CACHE_HOME=cache, HOME="/h")
            tests.expect(f"the folder of the corpus with XDG_CACHE_HOME={cache!r}", expected, default_folder())
    finally:
        os.environ.clear()
        os.environ.update(before)


def the_shapes(tests):
    rows = {
        b'1 OFFERS 1\n  "O1" "A" "h" 0\n2 RESCIND "O1"\nevents 2 bytes 123\n': b"0 OFFERS RESCIND events #1 bytes #3",
        b'1 OTHER "X"\n2 OTHER "Y"\nfault F12 Field record 10 offers.offers[0].id Missing after 2345\n':
            b"0 OTHER fault F12 Field record #2 offers.offers[#1].id Missing after #4",
        b"20\n{\"type\":\"HEARTBEAT\"}17\n{\"type\":\"SOME\"}": b"0 HEARTBEAT OTHER",
        b"refused S3 NoSuchOffer record 7 index 0\n": b"0 refused S3 NoSuchOffer record #1 index #1",
        b'entries 12\nframework "F1"\nhand "O1"\nhand "O2"\n': b"0 entries #2 hand",
    }
    for out, expected in rows.items():
        tests.expect("the outcome of a run", expected, shapes.outcome(Ran(out, b"", 0)), out)
    given = inputs.Input("request", [(b"one", None), (b"two", None)], None)
    lines = b"200 SUBSCRIBE\n400 -\n- -\n202 KILL\n403 KILL\n200 SUBSCRIBE\n"
    found = dict((data, shape) for shape, data in shapes.shapes_of("requests", given, [(["serve"], Ran(lines, b"", 0))]))
    tests.expect("the first fault of a shape", "F12", shapes.shape_of("JSON Lines", "stream", [b"1 fault F12 Field"]).split("-")[0])
    expected = {b"one": shapes.shape_of("requests", "request", [b"400", b"-"]), b"two": shapes.shape_of("requests", "request", [b"202", b"KILL"])}
    tests.expect("the shape of each request", expected, found)


# ---- the inputs


def changes_of_inputs(tests):
    pick, longest = random.Random(1), 0
    for kind in parts.KINDS:
        split, counted = [], []
        for _ in range(40):
            given = inputs.MAKERS[kind](pick)
            records = parts.split(kind, given.data) or []
            if records:
                split.append((records, parts.split(kind, parts.join(kind, records))))
            if given.count is not None and kind != "log":
                counted.append((given.count, len(records)))
            longest = max(longest, len(mutate.mutated(pick, kind, given.data, given.data)))
        tests.expect(f"records of kind {kind} that are joined and split", [one for one, _ in split], [other for _, other in split])
        tests.expect(f"the numbers of records of valid inputs of kind {kind}", [one for one, _ in counted], [other for _, other in counted])
        tests.expect(f"some inputs of kind {kind} have records", True, split != [])
    longest = max(longest, len(mutate.mutated(pick, "request", b"x" * 99999, b"x" * 99999)))
    tests.expect("the longest changed input", mutate.MOST, longest)
    text = b'{"a":[1,{"b":"}"}],"c":null'
    places = [text[at:end] for at, end, _ in sorted(mutate.values_of(text))]
    tests.expect("values and members", [b'"a":[1,{"b":"}"}]', b'[1,{"b":"}"}]', b"1", b'{"b":"}"}', b'"b":"}"', b'"}"', b'"c":null', b"null"], places)
    found = shrunk_values(b'{"a":[1,{"b":"}"}],"c":null}', lambda text: b"}}" in text or text.count(b"}") == 3)
    tests.expect("the members that are needed", b'{"a":[{"b":"}"}]}', found)


def stub(tried, program, pick, given):
    """A property whose outcome is the number of members of the input."""
    tried.append((given, pick.random()))
    out = b"events %d bytes 1\n" % (10 ** given.data.count(b":")) if given.kind != "request" else b"events 1 bytes 1\n"
    program.runs.append((["check"], Ran(out, b"", 0)))


def begun(folder, seed, word, tried):
    """Returns a run with the corpus in a folder, of which no program is run."""
    args = SimpleNamespace(word=word, program="/bin/true", beside=None, hours=1.0, corpus=folder, seed=seed, case=None, keep=False)
    fuzz = run.Fuzz(args)
    table = {name: (functools.partial(stub, tried), kinds, share) for name, (_, kinds, share) in run.PROPERTIES.items()}
    return hours.Hours(fuzz, table, fuzz.corpus)


def tried_by(folder, seed, count):
    """Returns the inputs of this number of cases, and the corpus after them."""
    tried = []
    long_run = begun(folder, seed, "", tried)
    for number in range(count):
        long_run.step(number)
    return tried, long_run.corpus.inputs


def the_same_seed_repeats(tests):
    with tempfile.TemporaryDirectory(prefix="mesosev-self-test-") as folder:
        one, two, three = (os.path.join(folder, name) for name in ("one", "two", "three"))
        tried_by(one, 1, 150)
        shutil.copytree(one, two)
        shutil.copytree(one, three)
        first, second, third = tried_by(one, 2, 300), tried_by(two, 2, 300), tried_by(three, 3, 300)
    tests.expect("the number of inputs", 300, len(first[0]))
    tests.expect("the same seed and corpus give the same inputs", True, first == second)
    tests.expect("another seed gives other inputs", False, first[0][:50] == third[0][:50])
    ordinary = [given for given, _ in first[0] if given.count is not None]
    tests.expect("some inputs are generated", True, ordinary != [])


def a_third_is_generated(tests):
    with tempfile.TemporaryDirectory(prefix="mesosev-self-test-") as folder:
        long_run = begun(folder, 1, "re", [])
        cases = [long_run.case_of(number) for number in range(300)]
    generated = [case for case in cases[::3] if " case " in case[3]]
    tests.expect("the number of generated inputs", 100, len(generated))
    tests.expect("the selected properties", {name for name in run.PROPERTIES if "re" in name}, {case[0] for case in cases})
    again = [long_run.fuzz.made(int(case[3].rsplit(" ", 1)[1])) for case in generated]
    tests.expect("the inputs of --case", [case[:3] for case in generated], again)


# ---- runs of programs


def names_of_traps(tests):
    ends = {"kill -ILL $$": "trap SIGILL", "exit 132": "trap status 132", "kill -SEGV $$": "trap SIGSEGV"}
    ends |= {"exit 3": "undocumented form", "echo x >&2": "undocumented form"}
    with tempfile.TemporaryDirectory(prefix="mesosev-self-test-") as folder:
        for end, expected in ends.items():
            program = shapes.Watched(script(folder, "ends", f"#!/bin/sh\n{end}\n"))
            try:
                got = str(program.run(["check"], b""))
            except Difference as difference:
                got = str(difference)
            tests.expect(f"the report of {end!r}", True, expected in got, got)


def a_hang_is_shrunk_with_a_short_limit(tests):
    limits = []

    def hangs(_, __, given):
        limits.append(Program.limit)
        if b"h" in given.data:
            raise Hang("no end", what="no end")

    fuzz = SimpleNamespace(is_chosen=lambda _: True, program=SimpleNamespace(runs=[]))
    given = inputs.Input("stream", b"which hangs", None)
    long_run = hours.Hours(fuzz, {"hang": (hangs, ["stream"], 1)}, None)
    with contextlib.redirect_stderr(io.StringIO()):
        found, _ = long_run.shrink("hang", "1-1", given, Hang("no end", what="no end"))
    tests.expect("the smallest input that hangs", b"h", found.data)
    tests.expect("the limits, and the limit of the last run", ({hours.SHORT_LIMIT}, Program.limit), (set(limits[:-1]), limits[-1]))


# ---- runs of run.py


def ended(tests, name, folder, *args):
    """Runs run.py, which must end with one failure. Returns its output and the inputs that it stored."""
    running = begin(folder, *args, "--hours", "0.1")
    out, err = running.communicate()
    last = out.splitlines()[-1:]
    tests.expect(f"the status after {name}", (1, True), (running.returncode, last != [] and last[0].endswith(" passed, 1 failed")), out + err)
    return out, stored(out)


def a_trap_is_shrunk(tests):
    with tempfile.TemporaryDirectory(prefix="mesosev-self-test-") as folder:
        out, found = ended(tests, "a trap", folder, fake(folder, "traps", trap=COMMON))
    tests.expect("the report of a trap", True, out.startswith(f"failed: {PROPERTY}, seed 1 ") and ": trap SIGILL of " in out, out)
    tests.expect("the smallest input with a trap", [COMMON], found, out)


def another_program_beside(tests):
    with tempfile.TemporaryDirectory(prefix="mesosev-self-test-") as folder:
        other = fake(folder, "other", other=COMMON)
        out, found = ended(tests, "a difference", folder, fake(folder, "one"), "--beside", other)
        tests.expect("the report of a difference", True, f"by {other}\n" in out, out)
    tests.expect("the smallest input with a difference", [COMMON], found, out)


def an_interrupt_ends_the_run(tests):
    with tempfile.TemporaryDirectory(prefix="mesosev-self-test-") as folder:
        running = begin(folder, fake(folder, "one"), "--hours", "1")
        until = time.monotonic() + 60
        while not os.path.isdir(f"{folder}/corpus") or len(os.listdir(f"{folder}/corpus")) < 3:
            if time.monotonic() >= until or running.poll() is not None:
                break
            time.sleep(0.05)
        running.send_signal(signal.SIGINT)
        out, err = running.communicate()
    tests.expect("the status after an interrupt", 0, running.returncode, out + err)
    tests.expect("the counts after an interrupt", True, bool(re.search(rf"^{PROPERTY}: [1-9]\d* passed, 0 failed\n", out, re.MULTILINE)), out)
    tests.expect("the last line after an interrupt", True, bool(re.search(r"\n[1-9]\d* passed, 0 failed\n$", out)), out)
    progress = rf"^fuzz: 0:\d\d:\d\d, \d+ inputs, corpus \d+ inputs of \d+ bytes, \d+ shapes \(.*\); {PROPERTY} \d+$"
    tests.expect("the line of progress", True, bool(re.search(progress, err, re.MULTILINE)), err)


def usage_errors(tests):
    for args in ("--corpus /tmp", "--hours 0", "--hours nan", "--hours x", "--hours 1 --case 1", "--hours 1 --corpus /dev/null/x"):
        ran = subprocess.run([sys.executable, run.__file__, "/bin/true", *args.split()], capture_output=True, text=True, check=False)
        tests.expect(f"a usage error of {args}", (2, "", True), (ran.returncode, ran.stdout, "error: " in ran.stderr))


def main():
    tests = Cases(parser(__doc__, "tests/fuzz/self_test.py -k corpus").parse_args().word)
    tests.run_chosen(
        shrinking_of_bytes, shrinking_of_inputs, manners, the_corpus, the_default_folder, the_shapes, changes_of_inputs, the_same_seed_repeats, a_third_is_generated,
        names_of_traps, a_hang_is_shrunk_with_a_short_limit, a_trap_is_shrunk, another_program_beside, an_interrupt_ends_the_run, usage_errors,
        arguments=(tests,),
    )
    return tests.end()


if __name__ == "__main__":
    sys.exit(main())
