"""Cases of allocations that fail: the master ends with status 1, or loses a response, and never crashes or hangs."""
import os
import re
import subprocess
import tempfile

from messages import event, launch, message, named, offer, offers, records, task
from pages import demand, get
from runs import Failed, Framework, Skipped, case, expect
from support import TOP
from wire import LIMIT, Broken, Connection

EVENTS = offers(offer("O1"), offer("O2")) + records(event("MESSAGE", **message(1)))
# How many of the allocations of a run fail, each in a run of its own.
TRIED = 24
WORDS = ["--once", "--seconds", "4", "--finish-after", "1"]
FAULTS = [f"--fault={it}" for it in ("twice:3", "late:4:1", "slow:4:1", "busy:6")]


def build(folder):
    """Builds a library of tests/refuse.c, which makes allocations fail, in a folder, and returns its path."""
    path = os.path.join(folder, "refuse.so")
    try:
        subprocess.run(["cc", "-shared", "-fPIC", "-o", path, os.path.join(TOP, "tests/refuse.c"), "-ldl"], check=True, capture_output=True)
    except (OSError, subprocess.CalledProcessError) as error:
        raise Skipped("there is no C compiler") from error
    return path


def show(port):
    """Asks for the page and the state, and posts an event."""
    connection = Connection(port)
    for data in (get("/"), get("/state"), demand(event("MESSAGE", **message(3)))):
        connection.ask(data)
    connection.close()


def use(port):
    """Makes calls of many types, as far as they get responses."""
    first = Framework(port)
    first.stream.read_within(0.1)
    first.ask("ACCEPT", launch(["O1"], task("T1"), task("T2")))
    for status in [it["update"]["status"] for it in first.stream.read_within(0.1) if it and it["type"] == "UPDATE"]:
        if "uuid" in status:
            first.ask("ACKNOWLEDGE", {name: status[name] for name in ("agent_id", "task_id", "uuid")})
    first.ask("DECLINE", {"offer_ids": [named("O2")], "filters": {"refuse_seconds": 0}})
    for name, body in [("RECONCILE", {}), ("KILL", {"task_id": named("T9")}), ("MESSAGE", message(2))]:
        first.ask(name, body)
    show(port)
    second = Framework(port)
    second.stream.read_within(0.1)
    second.ask("TEARDOWN")


def run_refused(program, library, number, is_all, options):
    """Returns the exit status of a run in which this allocation fails, and with `is_all` each later one, and what it printed."""
    environment = os.environ | {"LD_PRELOAD": library, "REFUSE_AT": str(number), "REFUSE_COUNT": library + ".count"}
    if is_all:
        environment["REFUSE_ALL"] = "1"
    pipes = {"stdout": subprocess.PIPE, "stderr": subprocess.PIPE}
    with tempfile.TemporaryFile() as file:
        file.write(EVENTS.encode())
        file.seek(0)
        running = subprocess.Popen([program, "master", "--port", "0", *WORDS, *options], stdin=file, env=environment, **pipes)
    try:
        line = running.stdout.readline().decode()
        if found := re.fullmatch(r"listening on 127\.0\.0\.1:(\d+)\n", line):
            try:
                use(int(found[1]))
            except (Failed, Broken, OSError, LookupError, TypeError):
                pass
        out, err = running.communicate(timeout=LIMIT)
        return running.returncode, line + out.decode(), err.decode()
    except subprocess.TimeoutExpired as error:
        raise Failed(f"allocation {number} fails, and it hangs") from error
    finally:
        running.kill()


def expect_no_crash(run, is_all, options=()):
    with tempfile.TemporaryDirectory(prefix="mesosev-refuse-") as folder:
        library = build(folder)
        status, out, err = run_refused(run.program, library, 0, False, options)
        expect("a run with memory", (0, "", True), (status, err, out.endswith("ended teardown\n")))
        with open(library + ".count", encoding="ascii") as file:
            asked = int(file.read())
        for number in range(1, asked + 1, max(1, asked // TRIED)):
            status, out, err = run_refused(run.program, library, number, is_all, options)
            expect(f"allocation {number} of {asked} fails: the status is 0 or 1, after {out[-200:]!r}", True, status in (0, 1) or status)
            expect(f"allocation {number} of {asked} fails: standard error", "", err)


@case("an allocation that fails ends the run with status 1 or costs a response, and never crashes")
def one_fails(run):
    expect_no_crash(run, False)


@case("an allocation that fails, and all later ones, end the run with status 1 or cost responses, and never crash")
def all_fail(run):
    expect_no_crash(run, True)


@case("the same with faults of events and calls: an allocation that fails ends the run or costs a response")
def one_fails_with_faults(run):
    expect_no_crash(run, False, FAULTS)
