#!/usr/bin/env python3
"""Runs a scheduler against `mesosev master` with faults at random, once for each seed.

The scheduler launches three tasks, acknowledges each update that it hears, sends a call again that was not answered, and
subscribes again if its stream ends or is silent. At the end of a run the master and the scheduler must agree: a RECONCILE of
all tasks reports exactly those that were launched, each with the last state that the scheduler heard. An update must follow
the one before it, and be of a task that was launched.

A run that fails is tried again alone, since events can be late on a busy machine. --long S repeats one run after another on
a single master instead, for S seconds, and compares the memory of the master at the beginning and at the end.
"""
import base64
import os
import signal
import sys
import time
from concurrent.futures import ThreadPoolExecutor

sys.dont_write_bytecode = True
sys.path.insert(1, os.path.join(os.path.dirname(os.path.abspath(__file__)), "live"))
from messages import SUBSCRIBE, call, launch, named, offer, offers, task
from runs import Failed, Master, expect
from support import Cases, parser
from wire import Broken, Connection, Stream, request

STATES = ["TASK_STARTING", "TASK_RUNNING", "TASK_FINISHED"]
# The seconds of silence after which the scheduler subscribes again, and those that a run may take.
SILENCE, LONGEST = 2.5, 60
# The number of tasks of a run, and the rate of faults of 1,000 events and calls.
TASKS, RATE = 3, 60
# The greatest growth of the master's memory in a long run, in KiB for each 1,000 tasks: it remembers their names.
GROWTH = 4096


class Scheduler:
    """A scheduler that survives faults."""

    def __init__(self, port, first):
        """The tasks are numbered from `first`."""
        self.port, self.stream, self.first, self.count = port, None, first, first
        # The states that were heard of each task, the task of each ACCEPT that was not answered, and what RECONCILE reported.
        self.heard, self.unsure, self.reported = {}, set(), {}

    def subscribe(self):
        """Subscribes until there is a stream with a SUBSCRIBED."""
        while not self.subscribe_once():
            pass

    def subscribe_once(self):
        """Returns whether there is a new stream with a SUBSCRIBED."""
        if self.stream:
            self.stream.close()
        try:
            self.stream = Stream(self.port, request(SUBSCRIBE | {"framework_id": named("F1")}))
            return self.stream.head.status == "200" and self.stream.next(SILENCE)["type"] == "SUBSCRIBED"
        except ConnectionRefusedError:
            raise
        except (Broken, OSError, TypeError):
            return False

    def ask(self, name, body=None):
        """Returns the status of a call, or none without a response."""
        connection = Connection(self.port)
        try:
            return connection.ask(request(call(name, "F1", body), self.stream.id))
        except (Broken, OSError):
            return None
        finally:
            connection.close()

    def tear_down(self):
        """Tears the framework down, on a new stream if there is none. The master ends then."""
        try:
            while self.do("TEARDOWN") != "202":
                self.subscribe_once()
        except ConnectionRefusedError:
            # The TEARDOWN was carried out and not answered.
            pass

    def do(self, name, body=None):
        """Sends a call until it is carried out, or names a stream that has ended."""
        while (status := self.ask(name, body)) in (None, "503"):
            pass
        return status

    def launch(self, made):
        """Launches a task on an offer, if more are wanted."""
        if len(self.heard) + len(self.unsure) >= TASKS:
            return
        name, self.count = f"T{self.count}", self.count + 1
        body = launch([made["id"]["value"]], task(name, 0.5, made["agent_id"]["value"]))
        while (status := self.ask("ACCEPT", body)) == "503":
            pass
        if status == "202":
            self.heard[name] = []
        elif status is None:
            self.unsure.add(name)

    def update(self, status):
        name, state = status["task_id"]["value"], status["state"]
        if status.get("reason") == "REASON_RECONCILIATION":
            self.reported[name] = state
            return
        expect(f"the uuid of an update of {name} {state}", True, "uuid" in status)
        base64.b64decode(status["uuid"], validate=True)
        if name in self.unsure:
            self.unsure.discard(name)
            self.heard[name] = []
        # An update of a task of an earlier run may come again.
        is_earlier = int(name.removeprefix("T")) < self.first
        expect(f"{name} was launched", True, is_earlier or name in self.heard)
        states = STATES if is_earlier else self.heard[name]
        if state not in states:
            expect(f"the states of {name}", STATES[: len(states) + 1], [*states, state])
            states.append(state)
        self.do("ACKNOWLEDGE", {key: status[key] for key in ("agent_id", "task_id", "uuid")})

    def step(self):
        """Handles the next event, or subscribes again without one."""
        try:
            event = self.stream.next(SILENCE)
        except (Broken, OSError):
            event = None
        if event is None:
            return self.again()
        if event["type"] == "OFFERS":
            for made in event["offers"]["offers"]:
                self.launch(made)
        elif event["type"] == "UPDATE":
            self.update(event["update"]["status"])
        return None

    def again(self):
        """Subscribes again, and asks for the tasks that may have been launched."""
        self.subscribe()
        if self.unsure:
            self.reported = {}
            self.do("RECONCILE", {"tasks": [{"task_id": named(it)} for it in sorted(self.unsure)]})
        for name in self.unsure & set(self.reported):
            if self.reported[name] == "TASK_LOST":
                self.unsure.discard(name)

    def settle_unsure(self):
        """Forgets the tasks that RECONCILE reports as unknown, and notes the others."""
        for name in sorted(self.unsure & set(self.reported)):
            self.unsure.discard(name)
            if self.reported[name] != "TASK_LOST":
                self.heard[name] = []

    def run_tasks(self, until):
        """Runs the tasks to their ends."""
        self.subscribe()
        while len(self.heard) < TASKS or any(states[-1:] != STATES[-1:] for states in self.heard.values()):
            expect(f"the tasks end in time: {self.heard}, {self.unsure}", True, time.monotonic() < until)
            self.step()
            self.settle_unsure()
            if len(self.heard) < TASKS:
                self.do("REVIVE")

    def agree(self, until):
        """Compares the tasks with those that the master reports: all, or after earlier runs those of this one."""
        self.reported = {}
        body = {} if self.first == 1 else {"tasks": [{"task_id": named(it)} for it in sorted(self.heard)]}
        while not set(self.heard) <= set(self.reported):
            expect(f"the master reports all tasks in time: {self.reported}", True, time.monotonic() < until)
            self.do("RECONCILE", body)
            self.step()
        self.hear_rest()
        expect("the states of the tasks", {name: STATES[-1] for name in self.heard}, self.reported)

    def hear_rest(self):
        """Handles the updates that are under way."""
        try:
            events = self.stream.read_within(0.1)
        except (Broken, OSError):
            return
        for event in events:
            if event and event["type"] == "UPDATE":
                self.update(event["update"]["status"])


def play(master, first):
    """Runs a scheduler once. Returns the number of its next task."""
    scheduler, until = Scheduler(master.port, first), time.monotonic() + LONGEST
    scheduler.run_tasks(until)
    scheduler.agree(until)
    return scheduler


def try_seed(program, seed):
    """Returns why a run with this seed failed, or none."""
    stock = offers(*[offer(f"O{number}", f"A{number}") for number in range(TASKS)])
    master = Master(program, "--faults", str(RATE), "--seed", str(seed), "--resend", "1", "--heartbeat", "1", "--finish-after", "0", "--once", events=stock)
    try:
        scheduler = play(master, 1)
        scheduler.tear_down()
        expect("the status of the master", 0, master.wait())
        expect("lines of other calls", [], [line for line in master.lines if line.startswith("400 ")])
    except (Failed, Broken, OSError, LookupError, TypeError, ValueError) as error:
        return f"{error!r}; the last lines: {master.lines[-12:]}"
    finally:
        master.end()
    return None


def try_long(program, seconds, cases):
    """Repeats runs on one master, and compares its memory."""
    stock = offers(*[offer(f"O{number}", f"A{number}") for number in range(TASKS)])
    master = Master(program, "--faults", str(RATE), "--resend", "1", "--heartbeat", "1", "--finish-after", "0", events=stock)
    begin, first, memory, at = time.monotonic(), 1, None, 1
    try:
        while time.monotonic() - begin < seconds:
            first = play(master, first).count
            if memory is None and time.monotonic() - begin > min(30, seconds / 4):
                memory, at = master.memory(), first
        grown, most = master.memory() - (memory or 0), GROWTH * (1 + (first - at) // 1000)
        faults = sum(line.startswith("fault ") for line in master.lines)
        print(f"{first - 1} tasks and {faults} faults in {time.monotonic() - begin:.0f} s; the memory grew from {memory} KiB by {grown} KiB")
        cases.expect("the memory of the master grows by little", True, grown <= most)
    except (Failed, Broken, OSError, LookupError, TypeError, ValueError) as error:
        cases.count("a long run", False, f": {error!r}; the last lines: {master.lines[-12:]}")
    finally:
        master.end()


def main():
    arguments = parser(__doc__, "tests/seeded.py $(tools/built checked) --runs 1000", "program", runs=100, first=1, long=0, together=8).parse_args()
    signal.signal(signal.SIGINT, signal.default_int_handler)
    cases, program = Cases(arguments.word), os.path.abspath(arguments.program)
    if arguments.long:
        try_long(program, arguments.long, cases)
        return cases.end()
    seeds = range(arguments.first, arguments.first + arguments.runs)
    with ThreadPoolExecutor(arguments.together) as pool:
        results = [*zip(seeds, pool.map(lambda seed: try_seed(program, seed), seeds))]
    for seed, why in results:
        if why is not None:
            print(f"tried again alone: seed {seed}: {why}")
            why = try_seed(program, seed)
        cases.count(f"seed {seed}", why is None, f": {why}")
    return cases.end()


if __name__ == "__main__":
    sys.exit(main())
