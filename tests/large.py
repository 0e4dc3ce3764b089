#!/usr/bin/env python3
"""Runs the built command on records and lines of the largest size, and checks its peak memory.

The cases are `message`, `unknown member`, `one byte more` and `call`, and those of JSON Lines: `line`, `last
line` (without LF), `line with CR LF`, `line of one byte more`, `empty lines` and `line of a call`.
"""
import os
import subprocess
import sys
import tempfile

sys.dont_write_bytecode = True
from support import Cases, parser

LIMIT = 67_108_864
# The limit of resident memory in bytes: twice the record, and 4 MiB.
RESIDENT = 2 * LIMIT + 4 * 1024 * 1024


MESSAGE = (b'{"type":"ERROR","error":{"message":"', b"m", b'"}}')
UNKNOWN = (b'{"type":"HEARTBEAT","x":"', b"m", b'"}')
CALL = (b'{"type":"KILL","framework_id":{"value":"F1"},"kill":{"task_id":{"value":"', b"m", b'"}}}')
# Lines that are passed over, and an event.
EMPTY_LINES = (b"", b"\n", b'{"type":"HEARTBEAT"}')


def write_text(file, text, size):
    """Writes a text of `size` bytes piece by piece. The byte between its ends is repeated."""
    front, fill, back = text
    file.write(front)
    left = size - len(front) - len(back)
    while left > 0:
        piece = fill * min(left, 65_536)
        file.write(piece)
        left -= len(piece)
    file.write(back)


def run(program, args, before, text, size, after):
    """Returns the output, the status, and the peak of resident memory in bytes. The text is between two others."""
    with tempfile.TemporaryFile() as source, tempfile.TemporaryFile() as out:
        source.write(before)
        write_text(source, text, size)
        source.write(after)
        source.seek(0)
        running = subprocess.Popen([program, *args], stdin=source, stdout=out, stderr=out)
        _, status, usage = os.wait4(running.pid, 0)
        running.returncode = os.waitstatus_to_exitcode(status)
        out.seek(0)
        return out.read().decode(), running.returncode, usage.ru_maxrss * 1024


def main():
    arguments = parser(__doc__, "tests/large.py $(tools/built checked) -k message", "program").parse_args()
    program, tests = os.path.abspath(arguments.program), Cases(arguments.word)
    size_line, too_long = b"%d\n" % LIMIT, f"fault F9 RecordTooLarge after {LIMIT + 1}\n"
    # The name, the option, what is before the text, the text, its size, what is after it, and the output and status.
    cases = [
        ("message", [], size_line, MESSAGE, LIMIT, b"", (f"events 1 bytes {LIMIT + 9}\n", 0)),
        ("unknown member", [], size_line, UNKNOWN, LIMIT, b"", (f"events 1 bytes {LIMIT + 9}\n", 0)),
        ("one byte more", [], b"%d\n" % (LIMIT + 1), MESSAGE, LIMIT + 1, b"", ("fault F9 RecordTooLarge after 9\n", 1)),
        ("call", ["--calls"], size_line, CALL, LIMIT, b"", (f"calls 1 bytes {LIMIT + 9}\n", 0)),
        ("line", ["--lines"], b"", MESSAGE, LIMIT, b"\n", (f"events 1 bytes {LIMIT + 1}\n", 0)),
        ("last line", ["--lines"], b"", UNKNOWN, LIMIT, b"", (f"events 1 bytes {LIMIT}\n", 0)),
        ("line with CR LF", ["--lines"], b"", UNKNOWN, LIMIT, b"\r\n", (f"events 1 bytes {LIMIT + 2}\n", 0)),
        ("line of one byte more", ["--lines"], b"", MESSAGE, LIMIT + 1, b"\n", (too_long, 1)),
        ("empty lines", ["--lines"], b"", EMPTY_LINES, 2 * LIMIT, b"", (f"events 1 bytes {2 * LIMIT}\n", 0)),
        ("line of a call", ["--lines", "--calls"], b"\n", CALL, LIMIT, b"\n", (f"calls 1 bytes {LIMIT + 2}\n", 0)),
    ]
    for name, options, before, text, size, after, expected in cases:
        if tests.is_chosen(name):
            printed, status, resident = run(program, ["check", *options, "--limit", str(LIMIT)], before, text, size, after)
            print(f"{name}: {printed.strip()}, status {status}, {resident / 2**20:.1f} MiB resident")
            tests.expect(name, expected, (printed, status))
            tests.expect(f"{name}: at most {RESIDENT >> 20} MiB", True, resident <= RESIDENT)
    return tests.end()


if __name__ == "__main__":
    sys.exit(main())
