"""Proves and builds a program that measures, in its own folder with copies of its crates."""

import os
import shutil
import subprocess

TOP = os.path.dirname(os.path.dirname(os.path.abspath(__file__)))


def crates(tops):
    """Returns these crates and those below them, in the order of crates.txt."""
    rows = {}
    with open(os.path.join(TOP, "crates.txt")) as file:
        for row in file:
            name, _, below = row.partition(":")
            rows[name] = below.split()
    needed, left = set(), list(tops)
    while left:
        name = left.pop()
        if name in rows and name not in needed:
            needed.add(name)
            left += rows[name]
    return [name for name in rows if name in needed]


def copy(name, folder):
    """Copies the sources of a crate again. Earlier proofs in the folder stay."""
    for part in ("src", "specs", "proofs"):
        own, there = (os.path.join(it, "crates", name, part) for it in (TOP, folder))
        shutil.rmtree(there, ignore_errors=True)
        if os.path.isdir(own):
            shutil.copytree(own, there)


def build(folder, name, text, tops, others):
    """Builds a program on these crates, those below and others. Returns its path."""
    names = crates(tops)
    for it in names:
        copy(it, folder)
    with open(os.path.join(TOP, "crates.txt")) as rows, open(os.path.join(folder, "crates.txt"), "w") as file:
        file.writelines(row for row in rows if row.split(":")[0] in names)
        file.write("%s: %s\n" % (name, " ".join(names + others)))
    program = os.path.join(folder, "crates", name)
    os.makedirs(os.path.join(program, "src"), exist_ok=True)
    with open(os.path.join(program, "src", "main.rt"), "w") as file:
        file.write(text)
    subprocess.run(["rt", "run", "--jobs", "1"], cwd=program, stdin=subprocess.DEVNULL, stdout=subprocess.DEVNULL, check=True)
    return os.path.join(program, "out", name)
