"""usage: json_reader.py [--chunked] < FILE

Reads RecordIO with Python's json, and prints the same line as `mesosev check`. With --chunked the
input is a chunked body. Checks that records are JSON, but not that they are events. bench/run
compares it with mesosev.
"""

import json
import sys


class Counted:
    """Pieces of standard input, and the number of bytes read with their framing."""

    def __init__(self, file):
        self.file, self.used = file, 0

    def plain(self):
        while piece := self.file.read1(65_536):
            self.used += len(piece)
            yield piece

    def chunked(self):
        while True:
            line = self.file.readline()
            size = int(line, 16)
            piece = self.file.read(size)
            self.used += len(line) + size + len(self.file.readline())
            if size == 0:
                return
            yield piece


def records(pieces):
    held, size = bytearray(), None
    for piece in pieces:
        held += piece
        while True:
            if size is None:
                end = held.find(b"\n")
                if end < 0:
                    break
                size = int(held[:end])
                del held[:end + 1]
            if len(held) < size:
                break
            yield held[:size]
            del held[:size]
            size = None


def main():
    source = Counted(sys.stdin.buffer)
    events = 0
    for record in records(source.chunked() if "--chunked" in sys.argv else source.plain()):
        json.loads(record)["type"]
        events += 1
    print("events", events, "bytes", source.used)


if __name__ == "__main__":
    main()
