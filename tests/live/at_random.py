"""Cases made at random, by seeds: requests cut anywhere on many connections, and a framework that does anything."""
import random
import time

from messages import call, event, launch, message, named, offer, offers, records, task
from runs import Failed, Framework, case, expect
from wire import PATH, request

ENDED = ("TASK_KILLED", "TASK_FINISHED")
# What may follow a state in the updates of a task.
NEXT = {None: ("TASK_STARTING",), "TASK_STARTING": ("TASK_RUNNING", *ENDED), "TASK_RUNNING": ENDED}


def any_request(chosen, framework):
    """Returns the bytes of a request, and its status."""
    good = framework.bytes_of("REVIVE")
    rows = [
        (good, "202"),
        (framework.bytes_of("MESSAGE", message(chosen.randrange(10**6)) | {"data": chosen.randrange(5000) * "AAAA"}), "202"),
        (b"\r\n" + good, "202"),
        (good.replace(b"\r\n", b"\n", good.count(b"\r\n")), "202"),
        (good.replace(b"Content-Length: ", b"CONTENT-length:000"), "202"),
        (request(call("REVIVE", "F9"), framework.stream.id), "403"),
        (framework.bytes_of("REVIVE", None, "Connection: close"), "202"),
        (good.replace(b"HTTP/1.1", b"HTTP/1.0"), "202"),
        (good.replace(PATH.encode(), b"/x"), "404"),
        (good.replace(b"POST", b"PUT"), "405"),
        (good.replace(b"Content-Type", b"X"), "400"),
        (request(call("REVIVE", framework.id), "s1"), "400"),
        (b"\x00" + good, "400"),
    ]
    # Most requests leave the connection open.
    return chosen.choice(rows[: 6 if chosen.random() < 0.9 else len(rows)])


def send_in_turns(chosen, todo):
    """Sends the bytes of each connection in pieces, in turns that are chosen at random."""
    while todo:
        connection, data = todo.pop(chosen.randrange(len(todo)))
        cut = chosen.choice([1, 7, 100, 1000, 10_000, len(data)])
        try:
            connection.send(data[:cut])
        except (BrokenPipeError, ConnectionResetError):
            # It was closed after a response that says so.
            continue
        if data[cut:]:
            todo.append((connection, data[cut:]))


@case("requests at random, cut anywhere on 30 connections, get their statuses in order until one closes its connection")
def random_requests(run):
    chosen = random.Random(60)
    _, framework = run.framework()
    for number in range(12):
        plans = [[any_request(chosen, framework) for _ in range(chosen.randrange(1, 20))] for _ in range(30)]
        connections = [run.masters[0].connect() for _ in plans]
        send_in_turns(chosen, [(it, b"".join(data for data, _ in plan)) for it, plan in zip(connections, plans)])
        for connection, plan in zip(connections, plans):
            for at, (data, status) in enumerate(plan):
                got = connection.read_response()
                expect(f"round {number}, request {at}, {data[:300]!r}", status, got.status)
                if got.fields.get("connection") == "close":
                    expect("what follows", b"", connection.read_rest()[0])
                    break
            connection.close()
    framework.do("REVIVE")


class AnyFramework:
    """A framework that does anything, and checks what comes."""

    def __init__(self, run, seed, options=()):
        self.chosen = random.Random(seed)
        made = [offer(f"O{number}", f"A{number % 3}", cpus=1.0) for number in range(6)]
        self.master = run.master("--resend", "1", "--heartbeat", "1", *options, events=offers(*made), stdin="pipe")
        self.agents = {it["id"]["value"]: it["agent_id"]["value"] for it in made}
        # The ids of offers that came, the offers that are outstanding, and which tasks use an offer, by its first id.
        self.seen, self.outstanding, self.used, self.rescinded = set(), set(), {}, set()
        # The last status of each task, the updates that wait, the tasks that may start, and those that may not.
        self.last, self.waiting, self.may_start, self.refused = {}, {}, set(), set()
        # The uuids of updates that have to come on a new stream before its offers.
        self.due = set()
        # Updates that were acknowledged, with the number of the MESSAGE after which they cannot come any more.
        self.late, self.number = {}, 0
        self.framework, self.count, self.done = Framework(self.master.port), 0, []

    def hear(self, seconds):
        for it in self.framework.stream.read_within(seconds):
            self.done.append(it and (it["type"], it.get("offers") or it.get("update")))
            if it["type"] == "OFFERS":
                for made in it["offers"]["offers"]:
                    self.hear_offer(made["id"]["value"])
            elif it["type"] == "UPDATE":
                self.hear_update(it["update"]["status"])
            elif it["type"] == "MESSAGE":
                self.late = {uuid: late for uuid, late in self.late.items() if message(late[1]) != it["message"]}
            elif it["type"] == "RESCIND":
                self.outstanding.discard(it["rescind"]["offer_id"]["value"])

    def hear_until(self, is_done, what):
        until = time.monotonic() + 10
        while not is_done():
            expect(f"{what} in time", True, time.monotonic() < until)
            self.hear(0.05)

    def hear_offer(self, name):
        first = name.split("-")[0]
        expect("the updates that have to come first", set(), self.due)
        expect(f"{name} came before", False, name in self.seen)
        expect(f"{first} is rescinded", False, first in self.rescinded)
        expect(f"{first} is outstanding", [], [it for it in self.outstanding if it.split("-")[0] == first])
        in_use = [it for it in self.used.get(first, ()) if self.last.get(it, {}).get("state") not in ENDED]
        expect(f"{first} is in use", [], in_use)
        self.seen.add(name)
        self.outstanding.add(name)

    def hear_update(self, status):
        name, state = status["task_id"]["value"], status["state"]
        if status.get("reason") == "REASON_RECONCILIATION":
            return
        if state in ("TASK_ERROR", "TASK_LOST"):
            expect(f"{name} was refused", True, name in self.refused)
        elif status.get("uuid") in self.waiting.get(name, {}):
            expect("an update that is sent again", self.waiting[name][status["uuid"]], status)
            self.due.discard(status["uuid"])
        elif status.get("uuid") in self.late:
            expect("an update that was sent again before its acknowledgement", self.late[status["uuid"]][0], status)
        else:
            expect(f"{name} may start", True, name in self.may_start)
            expect(f"{name}: what waits before {state}", {}, self.waiting.get(name, {}))
            expect(f"{name}: {state} may come", True, state in NEXT.get(self.last.get(name, {}).get("state"), ()))
            self.last[name], self.waiting[name] = status, {status["uuid"]: status}

    def accept(self):
        agent = self.chosen.choice(sorted(set(self.agents.values())))
        ids = [it for it in sorted(self.outstanding) if self.agents[it.split("-")[0]] == agent][: self.chosen.randrange(1, 3)]
        if self.chosen.random() < 0.15:
            ids.append("O1-999")
        if not ids:
            return
        tasks, left, fits = [], len(ids), []
        for _ in range(self.chosen.randrange(4)):
            self.count += 1
            name = f"T{self.count}"
            share = self.chosen.choice([0.1, 0.4, 0.5, 0.7])
            tasks.append(task(name, share, agent, mem=0.1))
            is_good = "O1-999" not in ids and share <= left + 1e-9
            left -= share if is_good else 0
            (self.may_start if is_good else self.refused).add(name)
            fits += [name] if is_good else []
        self.framework.do("ACCEPT", launch(ids, *tasks, refuse_seconds=self.chosen.choice([0, 0.2])))
        for it in ids:
            self.outstanding.discard(it)
            self.used[it.split("-")[0]] = fits

    def decline(self):
        ids = [it for it in sorted(self.outstanding) if self.chosen.random() < 0.5]
        if ids:
            wait = self.chosen.choice([0, 0.1, 1000])
            self.framework.do("DECLINE", {"offer_ids": list(map(named, ids)), "filters": {"refuse_seconds": wait}})
            self.outstanding.difference_update(ids)

    def acknowledge(self, share=0.6):
        """Acknowledges a share of the updates, and marks by a MESSAGE when none of them can come again."""
        chosen = [name for name in sorted(self.waiting) if self.waiting[name] and self.chosen.random() < share]
        for name in chosen:
            uuid, status = self.waiting[name].popitem()
            self.framework.acknowledge(status)
            self.late[uuid] = status, self.number
            self.framework.do("MESSAGE", message(self.number))
            self.number += 1

    def kill(self):
        if self.count:
            self.framework.do("KILL", {"task_id": named(f"T{self.chosen.randrange(1, self.count + 1)}")})

    def rescind(self):
        if self.outstanding and len(self.rescinded) < 2:
            name = self.chosen.choice(sorted(self.outstanding))
            self.master.feed(records(event("RESCIND", offer_id=named(name))))
            self.hear_until(lambda: name not in self.outstanding, f"RESCIND of {name}")
            self.rescinded.add(name.split("-")[0])

    def say_more(self):
        self.framework.do(*self.chosen.choice([("REVIVE",), ("SUPPRESS",), ("RECONCILE", {})]))

    def subscribe_again(self):
        self.hear(0.02)
        self.chosen.choice([lambda: None, self.framework.stream.reset, self.framework.stream.close])()
        # Each new stream offers again all that is free.
        self.outstanding.clear()
        self.framework = Framework(self.master.port)
        self.due, self.late = {uuid for waits in self.waiting.values() for uuid in waits}, {}
        self.hear_until(lambda: not self.due, "all updates came again")

    def do_anything(self):
        moves = 4 * [self.accept] + 4 * [self.acknowledge] + 2 * [self.kill, self.decline, self.say_more] + [self.rescind, self.subscribe_again]
        self.chosen.choice(moves)()
        self.hear(self.chosen.choice([0, 0.01, 0.02]))

    def end(self):
        """Kills and acknowledges until all tasks have ended and all offers are back."""
        until = time.monotonic() + 20
        stock = set(self.agents) - self.rescinded
        while {it.split("-")[0] for it in self.outstanding} != stock or any(self.waiting.values()):
            if time.monotonic() > until:
                raise Failed(f"not all offers came back: {sorted(self.outstanding)}, rescinded {sorted(self.rescinded)}, last {self.last}")
            for name, status in self.last.items():
                if status["state"] not in ENDED:
                    self.framework.do("KILL", {"task_id": named(name)})
            self.acknowledge(1)
            self.framework.do("REVIVE")
            self.hear(0.1)


def live_at_random(run, seeds, options=()):
    for seed in seeds:
        it = AnyFramework(run, seed, options)
        try:
            for _ in range(300):
                it.do_anything()
            it.end()
        except Failed as error:
            raise Failed(f"{error}\n  seed {seed}, last events: {it.done[-6:]}") from error
        it.master.end()


@case("a framework that does anything: no offer and no task comes twice, updates keep their order, and all offers come back")
def random_framework(run):
    live_at_random(run, range(4))


@case("a framework that does anything while its tasks finish")
def random_framework_that_finishes(run):
    live_at_random(run, range(4, 6), ("--finish-after", "1"))
