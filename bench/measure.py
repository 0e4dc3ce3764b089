"""Runs a program on a file, and returns its times, its peak memory and its instructions."""

import ctypes
import os
import re
import shutil
import subprocess
import tempfile
import time
from dataclasses import dataclass

PR_SET_CHILD_SUBREAPER = 36

# Short runs are repeated up to SHORT_RUNS times, or until they have taken LONG_ENOUGH seconds in total.
SHORT_RUNS = 30
LONG_ENOUGH = 0.4

# The shell starts the program and exits, so that this process adopts the program. The peak memory
# of a process begins with that of its parent, and a shell is smaller than Python.
START_AND_LEAVE = 'exec 3<&0; "$@" <&3 3<&- & exit 0'


@dataclass
class Run:
    """One run: user, system and clock time in seconds, and peak memory in KiB."""

    user: float
    system: float
    clock: float
    peak: int
    status: int
    printed: bytes


def can_adopt():
    """Returns whether this process adopts orphaned programs, which Linux does on request."""
    try:
        return ctypes.CDLL(None).prctl(PR_SET_CHILD_SUBREAPER, 1, 0, 0, 0) == 0
    except (AttributeError, OSError):
        return False


ADOPTS = can_adopt()


def run(command, path, keep=True):
    """Runs a command line on a file once. Its output is returned if `keep` is set."""
    started_by = ["sh", "-c", START_AND_LEAVE, "sh"] if ADOPTS else []
    with open(path, "rb") as source, (tempfile.TemporaryFile() if keep else open(os.devnull, "wb")) as out:
        begin = time.perf_counter()
        first = subprocess.Popen(started_by + command, stdin=source, stdout=out, stderr=subprocess.DEVNULL)
        if ADOPTS:
            first.wait()
            _, state, usage = os.wait4(-1, 0)
        else:
            _, state, usage = os.wait4(first.pid, 0)
            first.returncode = 0
        clock = time.perf_counter() - begin
        printed = b""
        if keep:
            out.seek(0)
            printed = out.read()
    return Run(usage.ru_utime, usage.ru_stime, clock, usage.ru_maxrss, os.waitstatus_to_exitcode(state), printed)


def best(command, path, rounds, keep=True):
    """Returns the least time of `rounds` runs, or of more if they are short.

    User and system time are divided as in the sum of all runs, because the kernel divides the time
    of a short run by its ticks only.
    """
    runs = [run(command, path, keep) for _ in range(rounds)]
    while rounds > 1 and len(runs) < SHORT_RUNS and sum(one.clock for one in runs) < LONG_ENOUGH:
        runs.append(run(command, path, keep))
    total = sum(one.user + one.system for one in runs)
    share = sum(one.user for one in runs) / total if total else 0.0
    least = min(one.user + one.system for one in runs)
    return Run(least * share, least * (1 - share), min(one.clock for one in runs), max(one.peak for one in runs),
               next((one.status for one in runs if one.status), 0), runs[-1].printed)


def counter():
    """Returns the tool that counts instructions here: "perf", "callgrind" or None."""
    if shutil.which("perf") and perf_count(["true"], os.devnull) is not None:
        return "perf"
    if shutil.which("valgrind") and callgrind_count(["true"], os.devnull) is not None:
        return "callgrind"
    return None


def instructions(tool, command, path):
    """Returns the user-mode instructions of one run, or None."""
    return {"perf": perf_count, "callgrind": callgrind_count}[tool](command, path)


def perf_count(command, path):
    printed = error_of(["perf", "stat", "-x", ",", "-e", "instructions:u", "--"] + command, path)
    found = re.search(r"^(\d+),[^,]*,instructions:u", printed, re.MULTILINE)
    return int(found[1]) if found else None


def callgrind_count(command, path):
    printed = error_of(["valgrind", "--tool=callgrind", "--callgrind-out-file=/dev/null"] + command, path)
    found = re.search(r"Collected : (\d+)", printed)
    return int(found[1]) if found else None


def error_of(command, path):
    """Returns the standard error of a command line on a file."""
    with open(path, "rb") as source:
        return subprocess.run(command, stdin=source, stdout=subprocess.DEVNULL, stderr=subprocess.PIPE).stderr.decode(errors="replace")
