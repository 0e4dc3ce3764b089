#!/usr/bin/env python3
"""Builds a small program in the same way as tools/checked, and makes each kind of check fail.

The program must then end by a trap (SIGILL). A case is a kind of check. Without the toolchain of
Rattle all cases are skipped.
"""
import importlib.machinery
import importlib.util
import os
import signal
import subprocess
import sys
import tempfile

sys.dont_write_bytecode = True
from support import TOP, Cases, parser

KINDS = "index slice sum difference product cast divisor remainder shift unwrap unreachable".split()
# The text after the kind of a check. With five letters the check fails, with none it succeeds.
GOOD, BAD = "", "12345"
SOURCE = """\
//! Makes the check of a kind fail.
#![tactic(auto)]

use std::io;

fn index(count: usize) -> u8 {
    let bytes = [1u8, 2, 3];
    bytes[count]
}

fn slice(count: usize) -> usize {
    let bytes = [1u8, 2, 3];
    bytes[count..].len()
}

fn sum(count: u8) -> u8 {
    count + 251
}

fn difference(count: u8) -> u8 {
    4 - count
}

fn product(count: u8) -> u8 {
    count * 52
}

fn cast(count: usize) -> u8 {
    (count * 100) as u8
}

fn divisor(count: usize) -> usize {
    7 / (5 - count)
}

fn remainder(count: usize) -> usize {
    7 % (5 - count)
}

fn shift(count: u32) -> u32 {
    1u32 << (count + 27)
}

fn unwrap(count: usize) -> usize {
    let found = if count == 5 { None } else { Some(count) };
    found.unwrap()
}

fn unreachable(count: usize) -> usize {
    if count == 5 {
        unreachable!()
    }
    count
}

/// Makes the check of this kind fail if `count` is 5.
fn fail(kind: &str, count: usize) -> usize {
    match kind {
        "index" => index(count) as usize,
        "slice" => slice(count),
        "sum" => sum(count as u8) as usize,
        "difference" => difference(count as u8) as usize,
        "product" => product(count as u8) as usize,
        "cast" => cast(count) as usize,
        "divisor" => divisor(count),
        "remainder" => remainder(count),
        "shift" => shift(count as u32) as usize,
        "unwrap" => unwrap(count),
        "unreachable" => unreachable(count),
        _ => count,
    }
}

fn main(rt: HostRuntime) -> io::Result<()> {
    for line in rt.lines(rt.alloc()) {
        let line = line?;
        let (kind, rest) = line.as_str().split_once(' ').unwrap_or(("", ""));
        let result = fail(kind, rest.len());
        println!(rt; "{result}")?;
    }
    Ok(())
}
"""


def builder():
    """Returns tools/checked as a module."""
    sys.path.insert(0, f"{TOP}/tools")
    loader = importlib.machinery.SourceFileLoader("checked", f"{TOP}/tools/checked")
    module = importlib.util.module_from_spec(importlib.util.spec_from_loader("checked", loader))
    loader.exec_module(module)
    return module


def build(folder):
    """Builds the program in a folder, and returns its path."""
    source = os.path.join(folder, "top", "crates", "traps", "src")
    os.makedirs(source)
    with open(f"{source}/main.rt", "w", encoding="utf-8") as file:
        file.write(SOURCE)
    with open(f"{folder}/top/crates.txt", "w", encoding="utf-8") as file:
        file.write("traps:\n")
    work = os.path.join(folder, "work")
    os.makedirs(work)
    return builder().Build(work, f"{folder}/top", "traps").program()


def main():
    tests = Cases(parser(__doc__, "tests/traps.py -k shift").parse_args().word)
    if builder().toolchain.missing():
        tests.skip("traps", builder().toolchain.missing())
        return tests.end()
    with tempfile.TemporaryDirectory(prefix="mesosev-traps-") as folder:
        program = build(folder)
        for kind in filter(tests.is_chosen, KINDS):
            for text, expected in ((GOOD, (0, True)), (BAD, (-signal.SIGILL, False))):
                line = f"{kind} {text}\n"
                ran = subprocess.run([program], input=line, capture_output=True, text=True, check=False)
                outcome = ran.returncode, ran.stdout.strip().isdigit()
                tests.expect(f"{kind}: status and whether a number is printed", expected, outcome, line)
    return tests.end()


if __name__ == "__main__":
    sys.exit(main())
