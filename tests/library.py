#!/usr/bin/env python3
"""Compares the Rattle code of docs/library/rattle.md with the program crates/mesosev_guide.

The lines of each block that is indented by four spaces must be consecutive lines of one file of
crates/mesosev_guide/src. A line `...` skips lines of the file. Blanks at the end of a line, and
blocks between lines ```, which are of other languages, are ignored. A case is a block; its name
has the first line of the block.
"""
import glob
import os
import sys

sys.dont_write_bytecode = True
from support import TOP, Cases, parser

PAGE = "docs/library/rattle.md"
SOURCES = "crates/mesosev_guide/src/*.rt"
INDENT = "    "
FENCE = "```"


def lines_of(path):
    with open(path, encoding="utf-8") as file:
        return [line.rstrip() for line in file.read().split("\n")]


def trimmed(run):
    """Returns the lines without the empty ones at both ends."""
    while run and not run[0][1]:
        run = run[1:]
    while run and not run[-1][1]:
        run = run[:-1]
    return run


def blocks_of(page):
    """Returns the blocks, each as its lines with their numbers in the page. A block can contain empty lines."""
    blocks, block, fenced = [], [], False
    for number, line in [*enumerate(page, 1), (0, "end")]:
        fenced ^= line.startswith(FENCE)
        if line.startswith(INDENT) and not fenced:
            block.append((number, line[len(INDENT) :]))
        elif not line:
            block.append((number, ""))
        else:
            blocks.append(trimmed(block))
            block = []
    return [block for block in blocks if block]


def runs_of(block):
    """Returns the parts of a block between its lines `...`."""
    runs = [[]]
    for number, line in block:
        if line.strip() == "...":
            runs.append([])
        else:
            runs[-1].append((number, line))
    return [run for run in map(trimmed, runs) if run]


def common(run, text, start):
    """Returns how many of the first lines of the run are in the text from line `start` on."""
    count = 0
    while count < len(run) and start + count < len(text) and text[start + count] == run[count][1]:
        count += 1
    return count


def fitting(runs, text):
    """Returns how many lines of the runs are in the text, in order, before the first one that is not."""
    at, total = 0, 0
    for run in runs:
        counts = [common(run, text, start) for start in range(at, len(text))]
        if len(run) not in counts:
            return total + max(counts, default=0)
        at += counts.index(len(run)) + len(run)
        total += len(run)
    return total


def fault_of(runs, texts):
    """Returns the error of a block, or None."""
    lines = [line for run in runs for line in run]
    if not lines:
        return "the block has no line of code"
    fits = max((fitting(runs, text) for text in texts), default=0)
    if fits == len(lines):
        return None
    number, line = lines[fits]
    return f"no file has line {number} in this place: {line!r}"


def main():
    tests = Cases(parser(__doc__, "tests/library.py -k master").parse_args().word)
    texts = [lines_of(path) for path in sorted(glob.glob(os.path.join(TOP, SOURCES)))]
    blocks = blocks_of(lines_of(os.path.join(TOP, PAGE)))
    for block in blocks or [[(0, "")]]:
        name = f"{PAGE}: {block[0][1]}"
        if tests.is_chosen(name):
            fault = fault_of(runs_of(block), texts)
            tests.count(name, fault is None, f": {fault}")
    return tests.end()


if __name__ == "__main__":
    sys.exit(main())
