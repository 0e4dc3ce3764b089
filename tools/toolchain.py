"""Finds the toolchain of Rattle, and loads its command `rt` as a module.

The interface of `rt` is not documented. If it changes, callers report what to do instead, or end
with a message that names the toolchain: `unknown_kit`.
"""

import importlib.machinery
import importlib.util
import os
import shutil
import sys
import threading
import time

TOP = os.path.dirname(os.path.dirname(os.path.realpath(__file__)))
DEFAULT = "/opt/rattle/bin/rt"
# The toolchains with which this commit, or an earlier one, was proved. README.md ends with them.
PROVED_WITH = ("rattle-kit-13b logic dac8208d650f15bf", "rattle-kit-13f logic dac8208d650f15bf")


def command():
    """Returns the path of the command `rt`, or None if there is no toolchain."""
    found = shutil.which("rt") or DEFAULT
    return os.path.realpath(found) if os.access(found, os.X_OK) else None


def kit():
    """Returns the folder of the toolchain, or None."""
    found = command()
    return found and os.path.dirname(os.path.dirname(found))


def missing():
    """Returns the error text if there is no toolchain, or None."""
    if command():
        return None
    return f"the toolchain of Rattle is missing: there is no `rt` on the PATH, and no {DEFAULT}"


def version():
    """Returns the line by which the toolchain identifies itself."""
    try:
        with open(f"{kit()}/KIT-ID", encoding="utf-8") as file:
            return file.read().strip()
    except OSError:
        return "a toolchain without KIT-ID"


def unknown_kit():
    """Returns a note on a toolchain with which this commit was not proved, else an empty text."""
    if version() in PROVED_WITH:
        return ""
    return f"this toolchain is {version()}; the commit was proved with {' or '.join(PROVED_WITH)}"


def module(name, file):
    """Returns a file of the toolchain as the module of this name."""
    sys.dont_write_bytecode = True
    loader = importlib.machinery.SourceFileLoader(name, file)
    made = importlib.util.module_from_spec(importlib.util.spec_from_loader(name, loader))
    sys.modules[name] = made
    loader.exec_module(made)
    return made


def newest_source():
    """Returns the time of the newest source in nanoseconds, which may be in the future."""
    newest = 0
    for crate in os.listdir(f"{TOP}/crates"):
        for part in ("src", "specs", "proofs"):
            for at, folders, files in os.walk(f"{TOP}/crates/{crate}/{part}"):
                newest = max([newest, *(os.stat(it).st_mtime_ns for it in [at, *(os.path.join(at, name) for name in files)])])
    return newest


def time_of_build():
    """Returns the file time of a build that begins now; a source edited meanwhile is newer."""
    return max(time.time_ns(), newest_source())


def sum_each_crate_once(library):
    """Makes a crate's checksum in one pass. The toolchain 13b reads a crate again for each path that leads to it: 25,000
    times for mesosev_live, which takes 12 minutes. The checksum is the same, and nothing is kept from one to the next."""
    whole, below = getattr(library.Crate, "stamp", None), threading.local()
    if not whole:
        return

    def stamp(crate):
        known = getattr(below, "known", None)
        if known is not None:
            if crate.folder not in known:
                known[crate.folder] = whole(crate)
            return known[crate.folder]
        below.known = {}
        try:
            return whole(crate)
        finally:
            below.known = None

    library.Crate.stamp = stamp


def load():
    """Returns the toolchain's command `rt` as a module; its library is `load().rtlib`."""
    made = module("rt", command())
    sum_each_crate_once(made.rtlib)
    return made


def load_library():
    """Returns the library of `rt`, which has the crates and their sources."""
    made = module("rtlib", f"{kit()}/bin/rtlib.py")
    sum_each_crate_once(made)
    return made
