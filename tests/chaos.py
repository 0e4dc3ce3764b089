#!/usr/bin/env python3
"""Runs examples/chaos with a built command, on schedulers that survive all faults, some, or none.

A scheduler that survives other faults than expected is tried again, since it can be late on a busy machine. The case of
examples/scheduler.py needs the C library, and is skipped unless MESOSEV_LIBRARY names it.
"""
import os
import re
import shutil
import subprocess
import sys
import tempfile
import time
from concurrent.futures import ThreadPoolExecutor
from importlib.machinery import SourceFileLoader
from importlib.util import module_from_spec, spec_from_loader

sys.dont_write_bytecode = True
from support import TOP, Cases, parser

CHAOS = os.path.join(TOP, "examples/chaos")
CLIENT = os.path.join(TOP, "tests/live/clients/with_faults.py")
# The time limit of a process of chaos, and of its runs, in seconds. Some runs use all of it: those of schedulers that hang.
LIMIT, SECONDS = 180, 25
RUNS = 20
STREAM_FAULTS = ["break-subscribed", "break-accept", "break-acknowledge", "break-twice", "mute"]
BUSY_FAULTS = ["busy-subscribe", "busy-accept", "busy-acknowledge"]
PLANNED_FAULTS = ["unanswered-subscribe", "unanswered-accept", "reset-accept", "cut-update"]
# The schedulers, and the faults that they do not survive. docs/TESTING.md says why.
SCHEDULERS = {
    "tests/live/clients/with_faults.py": ([CLIENT, "HOST:PORT"], []),
    "the same, which counts a task as launched too early": ([CLIENT, "{address}", "early"], ["busy-accept", "reset-accept"]),
    "examples/scheduler.py": ([os.path.join(TOP, "examples/scheduler.py"), "{url}", "3"], []),
    "examples/scheduler_loop.py": ([os.path.join(TOP, "examples/scheduler_loop.py"), "HOST:PORT"], BUSY_FAULTS + STREAM_FAULTS + PLANNED_FAULTS),
    "mesos-go's controller": (["mesos-go", "{url}"], ["busy-acknowledge", "mute"]),
}
GO_PATH = "/usr/share/gocode"
MESOS_GO = f"{GO_PATH}/src/github.com/mesos/mesos-go/api/v1/lib/extras/scheduler/controller"
GO_CLIENT = os.path.join(TOP, "tests/live/clients/robust.go")
NEEDS_LIBRARY = "examples/scheduler.py"
UP = "stream 1 opened"
DOWN = "stream 1 ended broken"
# A run of a good scheduler without a fault.
USUAL = ["200 SUBSCRIBE", UP, "202 ACCEPT", *["202 ACKNOWLEDGE"] * 3, "202 TEARDOWN", "stream 1 ended teardown"]
AGAIN = ["200 SUBSCRIBE", "stream 2 opened"]
# For each case a fault, the lines of the master, the exit status, and what the reason has in it; none if the run is survived.
RULES = {
    "a run without a fault": ("no-fault", USUAL, 0, None),
    "TEARDOWN, and the command goes on": ("no-fault", USUAL, None, None),
    "an end without TEARDOWN": ("no-fault", USUAL[:-2], 0, None),
    "neither an end nor TEARDOWN": ("no-fault", USUAL[:-2], None, "sends no TEARDOWN"),
    "another status": ("no-fault", USUAL, 1, "status 1"),
    "a signal": ("no-fault", USUAL, -9, "by signal 9"),
    "no SUBSCRIBE": ("no-fault", ["listening on 127.0.0.1:1"], None, "no SUBSCRIBE gets 200 within 9 s"),
    "no ACCEPT": ("no-fault", USUAL[:2], 0, "no ACCEPT gets 202, but it ended"),
    "two updates of three": ("twice-update", USUAL[:5] + USUAL[6:], 0, "2 of 3 updates"),
    "a call that is refused": ("no-fault", USUAL[:2] + ["403 DECLINE"] + USUAL[2:], 0, "refused calls: 403 DECLINE"),
    "a body that is no call": ("no-fault", USUAL[:2] + ["400 -"] + USUAL[2:], 0, "refused calls: 400 -"),
    "a call after TEARDOWN": ("no-fault", [*USUAL, "403 DECLINE"], 0, None),
    "one call on a broken stream": ("break-accept", USUAL[:3] + [DOWN, "403 DECLINE"] + AGAIN + USUAL[3:], 0, None),
    "one call that names a broken stream": ("break-accept", USUAL[:3] + [DOWN] + AGAIN + ["400 DECLINE"] + USUAL[3:], 0, None),
    "two calls on a broken stream": ("break-accept", USUAL[:3] + [DOWN, "403 DECLINE", "403 DECLINE"] + AGAIN + USUAL[3:], 0, "refused calls"),
    "no new stream": ("break-accept", USUAL[:3] + [DOWN], None, "not subscribed again"),
    "no BREAK": ("break-accept", USUAL[:2] + AGAIN + USUAL[2:], 0, "before the fault"),
    "no 503": ("busy-accept", USUAL, 0, "before the fault"),
    "a planned fault": ("late-update", [*USUAL, "fault late:3:2"], 0, None),
    "no planned fault": ("late-update", USUAL, 0, "before the fault"),
    "four ACCEPTs": ("task-lost", USUAL[:2] + ["202 ACCEPT"] * 3 + USUAL[2:], 0, None),
    "five ACCEPTs": ("task-lost", USUAL[:2] + ["202 ACCEPT"] * 4 + USUAL[2:], 0, "5 ACCEPTs, and 1 without a fault"),
    "a new stream after a short silence": ("mute-speak", USUAL[:2] + AGAIN + USUAL[2:], 0, "subscribed again"),
    "a stream that stays silent": ("mute", USUAL[:2], None, "not subscribed again"),
}


class Tests(Cases):
    """Runs chaos with a program."""

    def __init__(self, word, program):
        super().__init__(word)
        self.program, self.go_client = program, None

    def start(self, *words):
        """Starts chaos with these arguments."""
        environment = os.environ | {"PYTHONPATH": os.path.join(TOP, "lib"), "PYTHONDONTWRITEBYTECODE": "1"}
        pipes = {"stdout": subprocess.PIPE, "stderr": subprocess.PIPE}
        return subprocess.Popen([sys.executable, CHAOS, *words], env=environment, stdin=subprocess.DEVNULL, text=True, **pipes)

    def run(self, *words):
        """Returns the output of chaos with these arguments, its standard error, and its status."""
        running = self.start("--mesosev", self.program, *words)
        try:
            return (*running.communicate(timeout=LIMIT), running.returncode)
        except subprocess.TimeoutExpired:
            running.terminate()
            return (*running.communicate(), "it did not end")

    def try_scheduler(self, name):
        """Returns what is expected of a scheduler, what was got, and what was printed."""
        command, failing = SCHEDULERS[name]
        command = [self.go_client, *command[1:]] if command[0] == "mesos-go" else [sys.executable, *command]
        expected = sorted(failing), f"{RUNS - len(failing)} survived, {len(failing)} failed", int(bool(failing))
        for _ in range(3):
            out, err, status = self.run("--seconds", str(SECONDS), "--", *command)
            got = sorted(re.findall(r"^(\S+): FAILED", out, re.MULTILINE)), out.splitlines()[-1] if out else "", status
            if got == expected:
                break
        return expected, got, out + err

    def schedulers(self, together):
        """Tries the schedulers, `together` of them at once."""
        chosen = [name for name in SCHEDULERS if self.is_chosen(name)]
        if NEEDS_LIBRARY in chosen and not os.path.isfile(os.environ.get("MESOSEV_LIBRARY", "")):
            chosen.remove(NEEDS_LIBRARY)
            self.skip(NEEDS_LIBRARY, "MESOSEV_LIBRARY does not name the C library")
        with tempfile.TemporaryDirectory(prefix="mesosev-go-") as folder:
            self.build_go_client(folder, chosen)
            self.try_all(chosen, together)

    def build_go_client(self, folder, chosen):
        """Builds the scheduler over mesos-go, or removes it from those chosen."""
        name = next((it for it in chosen if SCHEDULERS[it][0][0] == "mesos-go"), None)
        if name is None:
            return
        if not shutil.which("go") or not os.path.isdir(MESOS_GO):
            chosen.remove(name)
            self.skip(name, "the packages golang-go and golang-github-mesos-mesos-go-dev are not installed")
            return
        self.go_client = os.path.join(folder, "robust")
        environment = os.environ | {"GO111MODULE": "off", "GOPATH": GO_PATH, "GOFLAGS": "", "GOCACHE": os.path.join(folder, "cache")}
        ran = subprocess.run(["go", "build", "-o", self.go_client, GO_CLIENT], env=environment, capture_output=True, text=True)
        self.expect(f"building {name}", (0, ""), (ran.returncode, ran.stderr))

    def try_all(self, chosen, together):
        with ThreadPoolExecutor(together) as pool:
            for name, (expected, got, printed) in zip(chosen, pool.map(self.try_scheduler, chosen)):
                self.expect(f"{name}: the faults that it does not survive", expected, got, printed)

    def rules(self):
        """Compares the reasons for which runs are not survived."""
        loader = SourceFileLoader("chaos", CHAOS)
        chaos = module_from_spec(spec_from_loader("chaos", loader))
        loader.exec_module(chaos)
        faults, usual = chaos.faults_with([{"id": {"value": "O1"}}]), chaos.Seen(USUAL, 0)
        for name, (fault, lines, status, part) in RULES.items():
            if self.is_chosen(name):
                why = chaos.why_failed(faults[fault], chaos.Seen(lines, status), None if fault == "no-fault" else usual, 9)
                self.expect(name, True, why is None if part is None else part in (why or ""), why)
        self.expect_of("the note of another call that got 503", "busy-accept: survived (503 REVIVE)", chaos.report_of, "busy-accept", faults["busy-accept"], chaos.Seen(["503 REVIVE"]), None)

    def refuse(self, name, message, *words):
        """Expects a message on standard error alone, and status 2."""
        if self.is_chosen(name):
            out, err, status = self.run(*words)
            self.expect(name, ("", True, 2), (out, message in err, status), err)

    def usage_errors(self):
        self.refuse("a usage error: no COMMAND", "COMMAND, after --, has none of HOST:PORT")
        self.refuse("a usage error: no place for the address", "COMMAND, after --, has none of HOST:PORT", "--", "true")
        self.refuse("a usage error: an unknown fault", "invalid choice: 'none'", "--only", "none", "--", "true", "HOST:PORT")
        self.refuse("a usage error: no time", "--seconds is from 1", "--seconds", "0", "--", "true", "HOST:PORT")
        self.refuse("a usage error: no mesosev", "there is no command mesosev", "--mesosev", "/none", "--", "true", "HOST:PORT")
        self.refuse("a usage error: no file of offers", "--offers /none: ", "--offers", "/none", "--", "true", "HOST:PORT")
        self.refuse("a usage error: a file without offers", "--offers /dev/null: it has no offers", "--offers", "/dev/null", "--", "true", "HOST:PORT")
        self.refuse("a usage error: offers that are no events", "README.md: fault F7", "--offers", f"{TOP}/README.md", "--", "true", "HOST:PORT")
        self.refuse("a command that cannot be started", "chaos: /none cannot be started: No such file or directory", "--", "/none", "HOST:PORT")

    def only_some(self):
        out, err, status = self.run("--only", "lose-update", "busy-subscribe", "--", sys.executable, CLIENT, "HOST:PORT")
        lines = "no-fault: survived\nbusy-subscribe: survived\nlose-update: survived\n3 survived, 0 failed\n"
        self.expect("--only: the runs are in the order of the list", (lines, "", 0), (out, err, status))

    def hanging(self):
        """Expects that a scheduler that ignores SIGTERM is ended, and that no fault is tried."""
        out, err, status = self.run("--seconds", "1", "--", sys.executable, CLIENT, "HOST:PORT", "hangs")
        found = re.search(r"of the command: process (\d+)\)", out)
        first = "no-fault: FAILED: no SUBSCRIBE gets 200 within 1 s (the last lines of the master: listening on "
        rest = ["no fault is tried, since it fails without one", "0 survived, 1 failed"]
        self.expect("a scheduler that hangs", (True, rest, "", 1), (out.startswith(first), out.splitlines()[1:], err, status), out)
        self.expect("a scheduler that hangs is ended", True, found is not None and has_ended(int(found[1])), out)

    def stopped(self):
        """Expects that a SIGTERM ends chaos, its masters and its schedulers."""
        with tempfile.NamedTemporaryFile() as file:
            script = f'echo $$ >>{file.name}; exec {sys.executable} {CLIENT} "$1"'
            running = self.start("--mesosev", self.program, "--only", "mute", "rescind", "--", "sh", "-c", script, "sh", "HOST:PORT")
            until, processes = time.monotonic() + 30, []
            while len(processes) < 3 and time.monotonic() < until:
                time.sleep(0.1)
                processes = [int(line) for line in file.read().splitlines()] if not file.seek(0) else []
            running.terminate()
            running.communicate(timeout=30)
        self.expect("the status after SIGTERM", 130, running.returncode)
        self.expect("the schedulers after SIGTERM", [True] * 3, [has_ended(it) for it in processes])


def has_ended(process):
    """Returns whether there is no such process."""
    try:
        os.kill(process, 0)
    except ProcessLookupError:
        return True
    return False


def main():
    arguments = parser(__doc__, "tests/chaos.py $(tools/built checked) -k hanging", "program", together=2).parse_args()
    tests = Tests(arguments.word, os.path.abspath(arguments.program))
    tests.rules()
    tests.usage_errors()
    tests.run_chosen(tests.only_some, tests.hanging, tests.stopped)
    tests.schedulers(arguments.together)
    return tests.end()


if __name__ == "__main__":
    sys.exit(main())
