#!/usr/bin/env python3
"""Compares sessions of lib/mesosev.py with `mesosev replay`, for random histories.

In each history a session hears events, makes and refuses calls, and writes its log. Then `replay --json` of the log must
print the session's state; and `replay` of the log and the last refused call must print the line of that refusal. A case
is a history. MESOSEV_LIBRARY names the C library; without it nothing is run.
"""
import io
import json
import os
import random
import subprocess
import sys

sys.dont_write_bytecode = True
from support import TOP, Cases, parser

sys.path.insert(1, os.path.join(TOP, "lib"))
import mesosev

# The names of offers, tasks and agents of a history: few, so that calls often name the same ones.
OFFERS, TASKS, AGENTS = [f"O{it}" for it in range(5)], [f"T{it}" for it in range(3)], ["A1", "A2"]
UUIDS = ["AAECAwQFBgcICQoLDA0ODw==", "Dw4NDAsKCQgHBgUEAwIBAA=="]


class History:
    """A random history of a session, and its log."""

    def __init__(self, seed):
        self.random, self.session, self.file = random.Random(seed), mesosev.Session(), io.BytesIO()
        self.log, self.refused = mesosev.Log(self.file), None

    def pick(self, names):
        return {"value": self.random.choice(names)}

    def cpus(self):
        return [{"name": "cpus", "type": "SCALAR", "scalar": {"value": self.random.choice((0.001, 0.5, 1, 2.25))}}]

    def ranges(self):
        begin = self.random.randrange(4)
        return [{"name": "ports", "type": "RANGES", "ranges": {"range": [{"begin": begin, "end": begin + self.random.randrange(3)}]}}]

    def resources(self):
        return self.cpus() + (self.ranges() if self.random.random() < 0.3 else [])

    def offer(self):
        return {"id": self.pick(OFFERS), "framework_id": {"value": "F1"}, "agent_id": self.pick(AGENTS), "hostname": "h", "resources": self.resources()}

    def task(self):
        return {"name": "t", "task_id": self.pick(TASKS), "agent_id": self.pick(AGENTS), "resources": self.resources()}

    def status(self):
        return {"task_id": self.pick(TASKS), "state": "TASK_RUNNING", "agent_id": self.pick(AGENTS), "uuid": self.random.choice(UUIDS)}

    def event(self):
        """Returns a random event."""
        kind = self.random.randrange(8)
        if kind == 0:
            return {"type": "SUBSCRIBED", "subscribed": {"framework_id": {"value": self.random.choice(("F1", "F1", "F2"))}}}
        if kind < 4:
            return {"type": "OFFERS", "offers": {"offers": [self.offer() for _ in range(self.random.randrange(1, 4))]}}
        if kind == 4:
            return {"type": "RESCIND", "rescind": {"offer_id": self.pick(OFFERS)}}
        if kind < 7:
            return {"type": "UPDATE", "update": {"status": self.status()}}
        return {"type": "HEARTBEAT"}

    def call(self):
        """Returns a random call."""
        session, names = self.session, [*self.session.offers]
        named = self.random.sample(names, self.random.randint(0, len(names))) if self.random.random() < 0.7 else self.random.choices(OFFERS, k=2)
        kind, body = self.random.randrange(6), {"offer_ids": [{"value": it} for it in named]}
        if kind < 3:
            tasks = [self.task() for _ in range(self.random.randrange(3))]
            launch = {"operations": [{"type": "LAUNCH", "launch": {"task_infos": tasks}}]} if tasks else {}
            return {"type": "ACCEPT", "framework_id": {"value": session.framework_id or "F1"}, "accept": {**body, **launch}}
        if kind == 3:
            return {"type": "DECLINE", "framework_id": {"value": session.framework_id or "F1"}, "decline": body}
        if kind == 4:
            keys = [*session.unacknowledged.values()]
            key = self.random.choice(keys) if keys and self.random.random() < 0.7 else {it: self.status()[it] for it in ("agent_id", "task_id", "uuid")}
            return {"type": "ACKNOWLEDGE", "framework_id": {"value": session.framework_id or "F1"}, "acknowledge": key}
        return {"type": "REVIVE", "framework_id": {"value": self.random.choice(("F1", "F2"))}}

    def step(self):
        """Adds an entry, unless it is a call that is refused."""
        chosen = self.random.random()
        if chosen < 0.3:
            event = self.event()
            self.session.heard(event)
            self.log.heard(event)
        elif chosen < 0.45:
            events = [self.event() for _ in range(self.random.randrange(4))]
            self.session.heard_all(events)
            for event in events:
                self.log.heard(event)
        elif chosen < 0.5 and self.session.connected:
            for call in self.session.acknowledge_all():
                self.log.said(call)
        elif chosen < 0.95:
            self.say(self.call())
        else:
            self.session.broken()
            self.log.broken()

    def say(self, call):
        before = state_of(self.session)
        try:
            text = self.session.said(call)
        except mesosev.Refusal as refusal:
            self.refused = refusal, call, len(self.file.getvalue())
            assert state_of(self.session) == before, "a refused call changed the session"
        else:
            assert json.loads(text) == json.loads(mesosev.call(json.dumps(call).encode())), "another canonical text"
            self.log.said(text)


def state_of(session):
    """Returns the state of a session as `replay --json` prints it."""
    owed = [{"agent_id": it["agent_id"]["value"], "task_id": it["task_id"]["value"], "uuid": it["uuid"]} for it in session.unacknowledged.values()]
    return {"entries": session.entries, "framework": session.framework_id, "connected": session.connected, "offers": [*session.offers.values()], "unacknowledged": owed}


def replay(program, log, *words):
    """Returns the standard output of `mesosev replay`."""
    return subprocess.run([program, "replay", *words], input=log, stdout=subprocess.PIPE, stderr=subprocess.DEVNULL).stdout.decode()


def log_differences(program, session, log):
    """Yields in what a session differs from that to which its log leads, by the command and by the library."""
    printed, state = json.loads(replay(program, log, "--json")), state_of(session)
    if printed != state:
        yield f"replay prints {printed}, the session has {state}"
    again = state_of(mesosev.Session.replay(log))
    if again != state:
        yield f"its log leads to {again}"


def differences(program, seed, steps):
    """Yields what is different for one history."""
    history = History(seed)
    for _ in range(steps):
        history.step()
    log = history.file.getvalue()
    yield from log_differences(program, history.session, log)
    if history.refused is not None:
        refusal, call, size = history.refused
        text = json.dumps(call).encode()
        record = b"%d\nC%s" % (len(text) + 1, text)
        line = replay(program, log[:size] + record).rstrip("\n")
        if line != refusal.line:
            yield f"replay prints {line}, the session {refusal.line}"


def run_cases(about, name, number, steps, differences):
    """Runs this number of cases, or that of the arguments. A case is good if `differences` yields nothing for its seed.

    name: that of a case, such as `history`. steps: the greatest number of steps of a case. Returns the exit status.
    """
    script = os.path.basename(sys.argv[0])
    made = parser(about, f"tests/{script} $(tools/built checked) --number 1000", "program")
    made.add_argument("--number", type=int, default=number, help="the number of cases (%(default)s)")
    made.add_argument("--steps", type=int, default=steps, help="the greatest number of steps of a case (%(default)s)")
    arguments = made.parse_args()
    cases, program = Cases(arguments.word), os.path.abspath(arguments.program)
    try:
        mesosev.version()
    except ImportError as error:
        cases.skip(f"{script}, number of cases {arguments.number}", str(error))
        return cases.end()
    for seed in range(arguments.number):
        found = [*differences(program, seed, arguments.steps)]
        cases.count(f"{name} {seed}", not found, ": " + "; ".join(found) if found else "")
    return cases.end()


if __name__ == "__main__":
    sys.exit(run_cases(__doc__, "history", 300, 30, differences))
