#!/usr/bin/env python3
"""Compares the worlds that mes_double_worlds prints with a model of a session and a test master, and checks their laws.

A world is a session, a test master, and the messages on the way between them. PROGRAM is the built
program of crates/mes_double_worlds, which reads moves as lines (docs/FORMAT.md); it is run once. For
--try CRATE, its folder, `rt try` compiles the program with checks and without a proof, and runs it
on some lists at a time.

The lists are each list of up to four of thirteen moves after each of three beginnings (with
--sample N every N-th of them), then --random lists of up to 40 random moves. The model shares no
code with the program: its session stores the history, and derives the outstanding offers and the
unacknowledged updates from it. A case is a list, and its name is its moves.
"""
import base64
import copy
import json
import os
import random
import re
import shutil
import subprocess
import sys
import tempfile
from collections import namedtuple

sys.dont_write_bytecode = True
from support import Cases, parser

FRAMEWORK = "F1"
STREAMS = ("1", "2")
DEPTH = 4
# `rt try` accepts 1 MiB of output: some 200 bytes a list.
LISTS_A_CASE = 3_000

# A resource is its name, its type, and its value: thousandths, ranges with both ends, or items.
Offer = namedtuple("Offer", "id agent resources")
Task = namedtuple("Task", "id agent resources")
Key = namedtuple("Key", "agent task uuid")
Status = namedtuple("Status", "task agent uuid state", defaults=["TASK_RUNNING"])
Event = namedtuple("Event", "kind body", defaults=[None])
# The ids of the offers; the key of an ACKNOWLEDGE; the ids of the tasks of a RECONCILE; the body of other calls,
# which neither end reads.
Call = namedtuple("Call", "kind framework offers tasks key named other", defaults=[FRAMEWORK, (), (), None, (), None])
Sent = namedtuple("Sent", "call stream")
Response = namedtuple("Response", "status events took ran master")
Arrival = namedtuple("Arrival", "index call status took ran")


def has_two(items):
    return len(set(items)) < len(items)


# ---- the lines of the moves


def value(text):
    return {"value": text}


def resource_tree(resource):
    name, kind, worth = resource
    if kind == "SCALAR":
        body = {"value": worth / 1000}
    elif kind == "RANGES":
        body = {"range": [{"begin": first, "end": last} for first, last in worth]}
    else:
        body = {"item": list(worth)}
    return {"name": name, "type": kind, kind.lower(): body}


def with_resources(tree, resources):
    return {**tree, "resources": [resource_tree(it) for it in resources]} if resources else tree


def offer_tree(offer):
    tree = {"id": value(offer.id), "framework_id": value(FRAMEWORK), "agent_id": value(offer.agent), "hostname": "h"}
    return with_resources(tree, offer.resources)


def task_tree(task):
    return with_resources({"name": "t", "task_id": value(task.id), "agent_id": value(task.agent)}, task.resources)


def base64_of(uuid):
    return base64.b64encode(uuid).decode()


def status_tree(status):
    tree = {"task_id": value(status.task), "state": status.state}
    if status.agent is not None:
        tree["agent_id"] = value(status.agent)
    if status.uuid is not None:
        tree["uuid"] = base64_of(status.uuid)
    return tree


def call_body(call):
    """Returns the body of a call, or None."""
    ids = {"offer_ids": [value(it) for it in call.offers]} if call.offers else {}
    if call.kind == "ACCEPT":
        launch = {"type": "LAUNCH", "launch": {"task_infos": [task_tree(it) for it in call.tasks]}}
        return {**ids, "operations": [launch]} if call.tasks else ids
    if call.kind == "DECLINE":
        return ids
    if call.kind == "ACKNOWLEDGE":
        return {"agent_id": value(call.key.agent), "task_id": value(call.key.task), "uuid": base64_of(call.key.uuid)}
    if call.kind == "RECONCILE":
        return {"tasks": [{"task_id": value(it)} for it in call.named]} if call.named else {}
    return call.other


def call_text(call):
    tree = {"type": call.kind}
    if call.framework is not None:
        tree["framework_id"] = value(call.framework)
    body = call_body(call)
    if body is not None:
        tree[call.kind.lower()] = body
    return json.dumps(tree)


def line_of(kind, body):
    """Returns the line of a move."""
    if kind == "offer":
        return "offer " + json.dumps({"type": "OFFERS", "offers": {"offers": [offer_tree(it) for it in body[0]]}})
    if kind == "update":
        return "update " + json.dumps({"type": "UPDATE", "update": {"status": status_tree(body[0])}})
    if kind == "wish":
        return "wish " + call_text(body[0])
    return " ".join([kind, *map(str, body)])


# A move: the name of the method of World that makes it, the arguments of that, and its line.
Move = namedtuple("Move", "kind body line")


def move(kind, *body):
    return Move(kind, body, line_of(kind, body))


def wish(*call, **fields):
    return move("wish", Call(*call, **fields))


HEAR = move("hear")


# ---- whether tasks fit


def points(resources, name, kind):
    """Returns the points, or the items, of the resources of this name and type."""
    found = set()
    for _, _, worth in (it for it in resources if it[:2] == (name, kind)):
        if kind == "SET":
            found.update(worth)
        else:
            for first, last in worth:
                found.update(range(first, last + 1))
    return found


def amount(resources, name):
    return sum(worth for it, kind, worth in resources if (it, kind) == (name, "SCALAR"))


def fits(offers, tasks):
    """Returns whether the tasks need at most the resources of the offers, and no point or item twice."""
    given = [it for offer in offers for it in offer.resources]
    for name, kind in {it[:2] for task in tasks for it in task.resources}:
        if kind == "SCALAR":
            if sum(amount(task.resources, name) for task in tasks) > amount(given, name):
                return False
            continue
        free = points(given, name, kind)
        for task in tasks:
            needed = points(task.resources, name, kind)
            if not needed <= free:
                return False
            free -= needed
    return True


# ---- the two ends


def key_of(status):
    """Returns the key of a status that requires an acknowledgement, or None."""
    return Key(status.agent, status.task, status.uuid) if status.uuid and status.agent is not None else None


def removes_offer(entry, name):
    """Returns whether an entry of a history ends that the offer of this id is outstanding."""
    kind, it = entry
    if kind == "sent":
        return it.kind in ("ACCEPT", "DECLINE") and name in it.offers
    return kind == "disconnected" or it.kind == "SUBSCRIBED" or it == Event("RESCIND", name)


class Session:
    """The history of a session. An entry is `received` and an event, `sent` and a call, or `disconnected`."""

    def __init__(self, history=()):
        self.history = history

    def with_entry(self, kind, it=None):
        return Session((*self.history, (kind, it)))

    def received(self, kind):
        """Returns the indices and bodies of the events of this type."""
        return [(at, it.body) for at, (what, it) in enumerate(self.history) if what == "received" and it.kind == kind]

    def framework(self):
        every = self.received("SUBSCRIBED")
        return every[-1][1] if every else None

    def is_connected(self):
        subscribed = [at for at, _ in self.received("SUBSCRIBED")]
        return bool(subscribed) and all(kind != "disconnected" for kind, _ in self.history[subscribed[-1] :])

    def outstanding(self):
        """Returns the offers that no later entry removes, each with its last value, in the order in which they first
        came after their last removal."""
        offers = [(at, offer) for at, offers in self.received("OFFERS") for offer in offers]
        found = []
        for name in {offer.id for _, offer in offers}:
            removal = max((at for at, entry in enumerate(self.history) if removes_offer(entry, name)), default=-1)
            stays = [number for number, (at, offer) in enumerate(offers) if offer.id == name and at > removal]
            if stays:
                found.append((stays[0], offers[stays[-1]][1]))
        return tuple(offer for _, offer in sorted(found))

    def unacknowledged(self):
        """Returns the keys of updates that no later ACKNOWLEDGE has."""
        updates = [(at, key_of(status)) for at, status in self.received("UPDATE") if key_of(status)]
        found = []
        for key in {key for _, key in updates}:
            sent = [at for at, (kind, it) in enumerate(self.history) if kind == "sent" and it.kind == "ACKNOWLEDGE" and it.key == key]
            stays = [at for at, it in updates if it == key and at > max(sent, default=-1)]
            if stays:
                found.append((stays[0], key))
        return tuple(key for _, key in sorted(found))

    def refuses(self, call):
        """Returns the first reason to reject a call, or None."""
        if call.kind == "SUBSCRIBE":
            return "S1" if None not in (self.framework(), call.framework) and call.framework != self.framework() else None
        if not self.is_connected() or call.framework != self.framework():
            return "S1"
        if call.kind in ("ACCEPT", "DECLINE"):
            return self.refuses_offers(call)
        return "S7" if call.kind == "ACKNOWLEDGE" and call.key not in self.unacknowledged() else None

    def refuses_offers(self, call):
        outstanding = {it.id: it for it in self.outstanding()}
        if has_two(call.offers) or has_two([it.id for it in call.tasks]):
            return "S2"
        if any(name not in outstanding for name in call.offers):
            return "S3"
        if call.kind == "DECLINE":
            return None
        offers = [outstanding[name] for name in call.offers]
        agents = {it.agent for it in offers}
        if len(agents) > 1:
            return "S4"
        if any({it.agent} != agents for it in call.tasks):
            return "S5"
        return None if fits(offers, call.tasks) else "S6"


class Master:
    """The state of a test master. A method returns the next state; None if the master refuses to send."""

    def __init__(self):
        self.streams, self.stream, self.down = STREAMS, None, False
        self.ever, self.outstanding, self.launched = (), (), ()
        self.given, self.acked = (), ()

    def changed(self, **fields):
        it = copy.copy(self)
        it.__dict__.update(fields)
        return it

    def offer(self, offers):
        names = tuple(it.id for it in offers)
        if self.stream is None or has_two(names) or set(names) & set(self.ever):
            return None
        return Event("OFFERS", offers), self.changed(ever=self.ever + names, outstanding=self.outstanding + offers)

    def rescind(self, name):
        if self.stream is None or name not in [it.id for it in self.outstanding]:
            return None
        return Event("RESCIND", name), self.changed(outstanding=self.less([name]))

    def update(self, status):
        if self.stream is None or (key_of(status) and key_of(status) in map(key_of, self.given)):
            return None
        return Event("UPDATE", status), self.changed(given=(*self.given, status))

    def resend(self, index):
        open_ones = [it for it in self.given if key_of(it) and key_of(it) not in self.acked]
        return (Event("UPDATE", open_ones[index]), self) if self.stream is not None and index < len(open_ones) else None

    def less(self, names):
        return tuple(it for it in self.outstanding if it.id not in names)

    def handle(self, call, stream):
        foreign = call.framework not in (None, FRAMEWORK)
        if self.down or foreign or (not self.streams if call.kind == "SUBSCRIBE" else self.stream is None):
            return Response(403, (), (), (), self)
        if call.kind == "SUBSCRIBE":
            later = self.changed(streams=self.streams[1:], stream=self.streams[0], outstanding=())
            return Response(200, (Event("SUBSCRIBED", FRAMEWORK),), (), (), later)
        if stream != self.stream:
            return Response(400, (), (), (), self)
        return self.carry_out(call)

    def carry_out(self, call):
        events, took, ran, later = (), (), (), self
        if call.kind in ("ACCEPT", "DECLINE"):
            took = tuple(it for it in self.outstanding if it.id in call.offers)
            if call.kind == "ACCEPT" and call.offers and len(took) == len(set(call.offers)):
                ran = tuple(it for it in call.tasks if it.id not in self.launched)
            later = self.changed(outstanding=self.less(call.offers), launched=self.launched + tuple(it.id for it in ran))
        elif call.kind == "ACKNOWLEDGE" and call.key in map(key_of, self.given) and call.key not in self.acked:
            later = self.changed(acked=(*self.acked, call.key))
        elif call.kind == "RECONCILE":
            last = {it.task: it for it in self.given}
            events = tuple(Event("UPDATE", last[it]._replace(uuid=None)) for it in call.named or last if it in last)
        elif call.kind == "TEARDOWN":
            later = self.changed(stream=None, down=True, outstanding=())
        return Response(202, events, took, ran, later)


# ---- the world


class World:
    """Both ends, the messages between them, and the events and calls that have arrived."""

    def __init__(self):
        self.master, self.session = Master(), Session()
        self.waiting, self.sent, self.skipped = (), (), 0
        self.events, self.arrivals = (), ()

    def made(self, move):
        """Returns the world after a move."""
        later = copy.copy(self)
        if not getattr(later, move.kind)(*move.body):
            later.skipped += 1
        return later

    # Each move returns whether it was made. The program counts the others as skipped.

    def send(self, sent):
        if sent is None:
            return False
        event, self.master = sent
        self.waiting += (event,)
        return True

    def offer(self, offers):
        return self.send(self.master.offer(offers))

    def rescind(self, name):
        return self.send(self.master.rescind(name))

    def update(self, status):
        return self.send(self.master.update(status))

    def resend(self, index):
        return self.send(self.master.resend(index))

    def hear(self):
        if not self.waiting:
            return False
        self.session = self.session.with_entry("received", self.waiting[0])
        self.events += self.waiting[:1]
        self.waiting = self.waiting[1:]
        return True

    def wish(self, call):
        if self.master.stream is None or self.session.refuses(call):
            return False
        self.session = self.session.with_entry("sent", call)
        self.sent += (Sent(call, self.master.stream),)
        return True

    def arrive(self, index):
        if index >= len(self.sent):
            return False
        call, stream = self.sent[index]
        status, events, took, ran, self.master = self.master.handle(call, stream)
        self.arrivals += (Arrival(index, call, status, took, ran),)
        self.waiting += events
        return status in (200, 202)

    def resubscribe(self):
        response = self.master.handle(Call("SUBSCRIBE", self.session.framework()), None)
        if response.status != 200:
            return False
        self.master, self.waiting = response.master, response.events
        self.session = self.session.with_entry("disconnected")
        return True

    def end(self):
        """Returns the line that the program prints for this world."""

        def part(name, items):
            return " ".join([name, *items])

        master, session = self.master, self.session
        return " | ".join(
            [
                f"stream {master.stream or '-'}",
                part("outstanding", [it.id for it in master.outstanding]),
                part("launched", master.launched),
                part("acked", [it.task for it in master.acked]),
                f"framework {session.framework() or '-'} {'on' if session.is_connected() else 'off'}",
                part("hand", [it.id for it in session.outstanding()]),
                part("owed", [it.task for it in session.unacknowledged()]),
                part("waiting", [it.kind for it in self.waiting]),
                f"sent {len(self.sent)}",
                f"skipped {self.skipped}",
            ]
        )

    def repeats(self):
        """Returns moves that deliver each ACCEPT, DECLINE and ACKNOWLEDGE of status 202 again."""
        again = {it.index for it in self.arrivals if it.status == 202 and it.call.kind in ("ACCEPT", "DECLINE", "ACKNOWLEDGE")}
        return [move("arrive", index) for index in sorted(again)]

    def under_way(self):
        """Returns the ids of the offers in each ACCEPT or DECLINE that was sent on the current stream and has not arrived."""
        arrived = {it.index for it in self.arrivals}
        current = [it.call for at, it in enumerate(self.sent) if at not in arrived and it.stream == self.master.stream]
        return {name for call in current if call.kind in ("ACCEPT", "DECLINE") for name in call.offers}


# ---- the laws


def parts_of(line):
    """Returns the items of each part of a printed world, by the name of the part."""
    return {name: items for name, *items in (part.split(" ") for part in line.split(" | "))}


def broken_law(world, line, later):
    """Returns the first law that is broken, or None.

    `line` is the printed world of a list. `later` is the world once all waiting events were received
    and each call that may be repeated has arrived again. The events and calls are the model's.
    """
    now, then = parts_of(line), parts_of(later)
    took = [it.id for arrival in world.arrivals for it in arrival.took]
    ran = [it.id for arrival in world.arrivals for it in arrival.ran]
    updates = [key_of(it.body) for it in world.events if it.kind == "UPDATE"]
    stream = now["stream"] != ["-"]
    under_way = world.under_way()
    laws = {
        "each acknowledged update was received": set(now["acked"]) <= {key.task for key in updates if key} and set(world.master.acked) <= set(updates),
        "no task is launched twice": not has_two(now["launched"]),
        "each launched task is of a call": now["launched"] == ran,
        "no offer is used twice": not has_two(took) and not set(took) & set(now["outstanding"]),
        "the launched tasks fit their offers": all(fits(it.took, it.ran) for it in world.arrivals),
        "a repeated call changes nothing": all(now[name] == then[name] for name in ("outstanding", "launched", "acked")),
        "hand and outstanding agree once all events were received": not stream or then["hand"] == [it for it in now["outstanding"] if it not in under_way],
        "hand and outstanding agree": not stream or bool(now["waiting"] or under_way) or now["hand"] == now["outstanding"],
    }
    return next((law for law, holds in laws.items() if not holds), None)


# ---- the lists


O1 = Offer("O1", "A1", (("cpus", "SCALAR", 1100), ("ports", "RANGES", ((1, 4), (3, 6)))))
O2 = Offer("O2", "A2", ())
T1 = Task("T1", "A1", (("cpus", "SCALAR", 600), ("ports", "RANGES", ((2, 5),))))
UUID = bytes(range(16))
RUNNING = Status("T1", "A1", UUID)
RESUBSCRIBE = move("resubscribe")
OFFER = move("offer", (O1,))
UPDATE = move("update", RUNNING)
ACCEPT = wish("ACCEPT", offers=("O1",), tasks=(T1,))
TEARDOWN = wish("TEARDOWN")

MOVES = [
    RESUBSCRIBE, HEAR, OFFER, move("offer", (O2,)), move("rescind", "O1"), UPDATE, move("resend", 0), ACCEPT, wish("DECLINE", offers=("O2",)),
    wish("ACKNOWLEDGE", key=Key("A1", "T1", UUID)), move("arrive", 0), move("arrive", 1), TEARDOWN,
]

BEGINNINGS = [[], [RESUBSCRIBE, HEAR], [RESUBSCRIBE, HEAR, OFFER, UPDATE, HEAR, HEAR, ACCEPT]]

O3 = Offer("O3", "A1", (("cpus", "SCALAR", 500), ("ports", "RANGES", ((10, 11),)), ("disks", "SET", ("a", "b"))))
O4 = Offer("O4", "A1", (("cpus", "SCALAR", 501),))
T2 = Task("T2", "A1", (("cpus", "SCALAR", 500), ("ports", "RANGES", ((1, 1),)), ("disks", "SET", ("a",))))
T3 = Task("T3", "A1", (("cpus", "SCALAR", 1), ("disks", "SET", ("a",))))
T4 = Task("T4", "A1", (("cpus", "SCALAR", 1),))
OTHER = bytes(range(1, 17))

# Further moves of random lists.
MORE = [
    move("offer", (O3, O4)), move("offer", (O3, O3)), move("offer", ()), move("rescind", "O4"), move("rescind", "O9"),
    move("update", Status("T2", "A1", OTHER)), move("update", Status("T1", "A1", OTHER, "TASK_FINISHED")), move("update", Status("T3", "A1", None)),
    move("update", Status("T1", None, OTHER)), move("update", Status("T4", "A2", b"")), move("resend", 1), move("resend", 2),
    move("arrive", 2), move("arrive", 3), move("arrive", 5),
    wish("ACCEPT", offers=("O3",), tasks=(T1,)), wish("ACCEPT", offers=("O1", "O3"), tasks=(T1, T2)),
    wish("ACCEPT", offers=("O3", "O1"), tasks=(T2, T3)), wish("ACCEPT", offers=("O3", "O4"), tasks=(T3, T4)),
    wish("ACCEPT", offers=("O4",), tasks=(T4,)), wish("ACCEPT", offers=("O1", "O2")),
    wish("ACCEPT", offers=("O1", "O1")), wish("ACCEPT", offers=("O4",), tasks=(T4, T4)), wish("ACCEPT"),
    wish("ACCEPT", tasks=(T4,)), wish("ACCEPT", offers=("O2",), tasks=(T4,)),
    wish("DECLINE", offers=("O2", "O4")), wish("DECLINE"), wish("DECLINE", "F2", ("O2",)),
    wish("ACKNOWLEDGE", key=Key("A1", "T2", OTHER)), wish("ACKNOWLEDGE", key=Key("A2", "T1", UUID)),
    wish("ACKNOWLEDGE", key=Key("A1", "T1", OTHER)), wish("RECONCILE"),
    wish("RECONCILE", named=("T2", "T9", "T1", "T2")), wish("REVIVE"), wish("SUPPRESS"),
    wish("KILL", other={"task_id": value("T1")}),
    wish("SHUTDOWN", other={"executor_id": value("E1"), "agent_id": value("A1")}),
    wish("MESSAGE", other={"agent_id": value("A1"), "executor_id": value("E1"), "data": "AAE="}),
    wish("SUBSCRIBE", None, other={"framework_info": {"user": "root", "name": "n"}}),
    wish("SUBSCRIBE", "F2", other={"framework_info": {"user": "root", "name": "n"}}),
]

# The moves of random lists. Those that change more are listed more than once.
USUAL = 2 * [it for it in MOVES if it is not TEARDOWN] + MORE + 12 * [HEAR] + 5 * [move("arrive", index) for index in range(4)]


def led_to(moves):
    """Returns the world to which the moves lead."""
    world = World()
    for it in moves:
        world = world.made(it)
    return world


def grown(world, moves, depth):
    """Yields each list of up to `depth` moves after `moves`, and its world."""
    yield moves, world
    if depth > 0:
        for it in MOVES:
            yield from grown(world.made(it), [*moves, it], depth - 1)


def at_random(seed):
    """Returns a random list and its world. TEARDOWN is rare, since little can happen after it."""
    pick = random.Random(seed)
    moves = [RESUBSCRIBE, HEAR]
    moves += [pick.choice(USUAL) if pick.random() < 0.99 else TEARDOWN for _ in range(pick.randrange(39))]
    return moves, led_to(moves)


def lists(sample, count):
    """Yields the lists to be tried, and their worlds."""
    every = (it for beginning in BEGINNINGS for it in grown(led_to(beginning), beginning, DEPTH))
    for number, it in enumerate(every):
        if number % sample == 0:
            yield it
    for seed in range(count):
        yield at_random(seed)


# ---- the run


class Run:
    """The input of the program, and the lines that it must print."""

    def __init__(self):
        self.input, self.expected = [], []

    def add(self, moves, world):
        """Adds a list, and the list with further moves: all waiting events are received, and calls are repeated."""
        more = [HEAR] * len(world.waiting) + world.repeats()
        later = world
        for it in more:
            later = later.made(it)
        lines = [it.line for it in moves]
        self.input.append("\n".join([*lines, "end", *lines, *(it.line for it in more), "end\n"]))
        self.expected.append((moves, world, world.end(), later.end()))

    def lines(self, first=0, last=None):
        """Returns the expected lines of these lists."""
        return [line for _, _, *both in self.expected[first:last] for line in both]


def compare(run, printed):
    """Returns the number of lists whose lines are wrong, and prints the first of them."""
    failed = 0
    for number, (moves, world, end, later) in enumerate(run.expected):
        got = printed[2 * number : 2 * number + 2]
        why = None if got == [end, later] else "another world"
        if len(got) == 2:
            why = broken_law(world, *got) or why
        if why is None:
            continue
        failed += 1
        if failed <= 5:
            print(f"failed: {why}\n  input:   ", "\n            ".join(it.line for it in moves))
            print("  expected:", end, "\n           ", later, "\n  got:     ", "\n            ".join(got))
    return failed


def run_program(run, program):
    """Runs the built program once. Returns the number of lists whose lines are wrong."""
    with tempfile.TemporaryFile("w+") as file:
        file.writelines(run.input)
        file.seek(0)
        done = subprocess.run([program], stdin=file, capture_output=True, text=True, check=False)
    printed = done.stdout.splitlines()
    failed = compare(run, printed)
    if done.returncode != 0 or len(printed) != 2 * len(run.expected):
        print(f"failed: status {done.returncode}, {len(printed)} lines instead of {2 * len(run.expected)}: {done.stderr[:400]}")
        failed = max(failed, 1)
    return failed


def try_crate(run, crate):
    """Runs the crate by `rt try` on files of lists, each with its expected output.

    Returns the number of lists in the files whose output differs, and of lists whose expected world
    breaks a law.
    """
    cases = -(-len(run.expected) // LISTS_A_CASE)
    with tempfile.TemporaryDirectory() as folder:
        for first in range(0, len(run.expected), LISTS_A_CASE):
            last, name = first + LISTS_A_CASE, os.path.join(folder, f"{first:06}")
            with open(name, "w", encoding="utf-8") as file:
                file.writelines(run.input[first:last])
            with open(name + ".stdout", "w", encoding="utf-8") as file:
                file.writelines(line + "\n" for line in run.lines(first, last))
        rt = shutil.which("rt") or "/opt/rattle/bin/rt"
        command = [rt, "try", "--steps", "1", "--seconds", "600", "--cases", folder]
        done = subprocess.run(command, cwd=crate, capture_output=True, text=True, stdin=subprocess.DEVNULL, check=False)
    printed = done.stdout + done.stderr
    wrong = {int(it) for it in re.findall(r"^case=(\d+) (?!run=ended status=0 .*output=expected)", printed, re.M)}
    if done.returncode != 0 or f"cases={cases} ended={cases} " not in printed:
        print(f"failed: rt try, status {done.returncode}:", "\n".join(done.stdout.splitlines()[-5:]), done.stderr[-800:])
        wrong = wrong or {0}
    return compare(run, run.lines()) + sum(len(run.expected[it : it + LISTS_A_CASE]) for it in wrong)


def main():
    made = parser(__doc__, "tests/worlds.py --try crates/mes_double_worlds --sample 16 --random 200", sample=1, random=1500)
    what = made.add_mutually_exclusive_group(required=True)
    what.add_argument("program", nargs="?", help="the built program of crates/mes_double_worlds")
    what.add_argument("--try", dest="crate", metavar="CRATE", help="the folder of that crate, which is compiled and run")
    args = made.parse_args()
    run, cases = Run(), Cases(args.word)
    for moves, world in lists(args.sample, args.random):
        if cases.is_chosen("\n".join(it.line for it in moves)):
            run.add(moves, world)
    cases.failed = run_program(run, args.program) if args.program else try_crate(run, args.crate)
    cases.passed = len(run.expected) - cases.failed
    return cases.end()


if __name__ == "__main__":
    sys.exit(main())
