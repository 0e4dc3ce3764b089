"""Cases of tasks: ACCEPT, updates and their acknowledgement, KILL, RECONCILE, --finish-after, --resend; MESSAGE and SHUTDOWN."""
import base64
import random
import time

from messages import amount, launch, message, named, offer, offers, states, task
from runs import Framework, case, expect, expect_within

ONE_OFFER = offers(offer("O1"))
TWO_OFFERS = offers(offer("O1"), offer("O2"))


def launched(run, *options, tasks=("T1",), made=ONE_OFFER, names=("O1",)):
    """Returns a master and a framework that has launched tasks on O1, of which no update was read."""
    master, framework = run.framework(*options, events=made)
    framework.read_offers(*names)
    framework.do("ACCEPT", launch(["O1"], *(task(name, 0.25) for name in tasks)))
    return master, framework


@case("an ACCEPT launches a task that fits: TASK_STARTING with a uuid, and TASK_RUNNING with another one after its acknowledgement")
def task_that_fits(run):
    _, framework = launched(run)
    starting = framework.read_update("T1", "TASK_STARTING")
    expect("its agent", named("A1"), starting["agent_id"])
    framework.expect_nothing(1)
    framework.acknowledge(starting)
    running = framework.read_update("T1", "TASK_RUNNING")
    expect("the bytes of the uuids", [16, 16], [len(base64.b64decode(it["uuid"], validate=True)) for it in (starting, running)])
    expect("the uuids differ", True, starting["uuid"] != running["uuid"])
    framework.acknowledge(running)
    framework.expect_nothing(1)


@case("tasks of one ACCEPT start together, and each runs after the acknowledgement of its own update")
def tasks_together(run):
    _, framework = launched(run, tasks=("T1", "T2", "T3"))
    started = [framework.next() for _ in range(3)]
    expect("the updates", [(name, "TASK_STARTING") for name in ("T1", "T2", "T3")], sorted(states(started)))
    expect("the uuids", 3, len({it["update"]["status"]["uuid"] for it in started}))
    second = next(it["update"]["status"] for it in started if it["update"]["status"]["task_id"] == named("T2"))
    framework.acknowledge(second)
    framework.read_update("T2", "TASK_RUNNING")
    framework.expect_nothing(0.5)


@case("an ACKNOWLEDGE of no update, or a second one, gets 202 and moves no task on")
def foreign_acknowledgements(run):
    _, framework = launched(run)
    status = framework.read_update("T1", "TASK_STARTING")
    for name, value in (("uuid", "AAECAwQFBgcICQoLDA0ODw=="), ("task_id", named("T9")), ("agent_id", named("A9"))):
        framework.acknowledge(status | {name: value})
    framework.expect_nothing(0.5)
    framework.acknowledge(status)
    framework.read_update("T1", "TASK_RUNNING")
    framework.acknowledge(status)
    framework.expect_nothing(0.5)


@case("a task that does not fit gets TASK_ERROR with a message that names the resource")
def task_that_does_not_fit(run):
    rows = [
        ("T1", task("T1", cpus=1.001), "cpus", "mem"),
        ("T2", task("T2", mem=100.001), "mem", "cpus"),
        ("T3", task("T3") | {"resources": [amount("gpus", 1)]}, "gpus", "cpus"),
    ]
    _, framework = run.framework(events=offers(*(offer(f"O{number}") for number in range(len(rows)))))
    framework.read_offers("O0", "O1", "O2")
    for number, (name, it, wanted, other) in enumerate(rows):
        framework.do("ACCEPT", launch([f"O{number}"], it))
        events = framework.stream.read_within(0.5)
        updates = [it["update"]["status"] for it in events if it["type"] == "UPDATE"]
        expect(f"the updates of {name}", [(name, "TASK_ERROR")], [(it["task_id"]["value"], it["state"]) for it in updates])
        said = updates[0].get("message", "")
        expect(f"the message of {name}, {said!r}, names {wanted} and not {other}", (True, False), (wanted in said, other in said))


@case("of the tasks of an ACCEPT those that fit are launched, and the one that takes more than is left gets TASK_ERROR")
def some_that_fit(run):
    _, framework = run.framework(events=ONE_OFFER)
    framework.read_offers("O1")
    framework.do("ACCEPT", launch(["O1"], task("T1", 0.6), task("T2", 0.401), task("T3", 0.4)))
    updates = [framework.next() for _ in range(3)]
    expect("the updates", [("T1", "TASK_STARTING"), ("T2", "TASK_ERROR"), ("T3", "TASK_STARTING")], sorted(states(updates)))


def expect_fitting(run, amounts):
    """Launches a task for each of these thousandths of a cpu on an offer of 100 cpus. Each task fits that has enough left of it, in order."""
    _, framework = run.framework(events=offers(offer("O1", cpus=100.0, mem=1e6)))
    framework.read_offers("O1")
    left, wanted = 100_000, []
    for number, it in enumerate(amounts):
        wanted.append((f"T{number}", "TASK_STARTING" if it <= left else "TASK_ERROR"))
        left -= it if it <= left else 0
    begun = time.monotonic()
    framework.do("ACCEPT", launch(["O1"], *(task(f"T{number}", it / 1000) for number, it in enumerate(amounts))))
    took = time.monotonic() - begun
    got = [framework.next() for _ in amounts]
    expect("the updates", sorted(wanted), sorted(states(got)))
    return took


@case("of many tasks of an ACCEPT exactly those fit that have enough left after those before them")
def many_that_fit_in_part(run):
    seeded = random.Random(7)
    for least, most in ((1, 400), (50, 50), (100, 2000), (40_000, 60_000)):
        expect_fitting(run, [seeded.randint(least, most) for _ in range(600)])


@case("an ACCEPT of 3,000 tasks of which the last does not fit takes less than 5 seconds")
def large_accept_with_a_misfit(run):
    expect_within("the seconds", 0, 5, expect_fitting(run, 2999 * [30] + [900_000]))


@case("an offer whose tasks did not fit is offered again")
def offer_of_a_task_that_does_not_fit(run):
    _, framework = run.framework(events=ONE_OFFER)
    framework.read_offers("O1")
    framework.do("ACCEPT", launch(["O1"], task("T1", 2.0)))
    status = framework.read_update("T1", "TASK_ERROR")
    if "uuid" in status:
        framework.acknowledge(status)
    framework.read_offers("O1-2", limit=20)


@case("tasks on two offers of an agent may take what both have")
def two_offers_of_an_agent(run):
    _, framework = run.framework(events=TWO_OFFERS)
    framework.read_offers("O1", "O2")
    framework.run_tasks(["O1", "O2"], task("T1", 2.0, mem=200.0))


@case("a task on offers of two agents does not get what the other agent has")
def offers_of_two_agents(run):
    _, framework = run.framework(events=offers(offer("O1", "A1"), offer("O2", "A2")))
    framework.read_offers("O1", "O2")
    framework.do("ACCEPT", launch(["O1", "O2"], task("T1", 2.0, "A1")))
    ((name, state),) = states(it for it in framework.stream.read_within(1) if it["type"] == "UPDATE")
    expect("its state", True, (name, state) in [("T1", "TASK_ERROR"), ("T1", "TASK_LOST")] or state)


@case("an offer that is named twice in an ACCEPT counts once")
def offer_named_twice(run):
    _, framework = run.framework(events=ONE_OFFER)
    framework.read_offers("O1")
    framework.do("ACCEPT", launch(["O1", "O1"], task("T1", 1.5)))
    ((name, state),) = states(it for it in framework.stream.read_within(1) if it["type"] == "UPDATE")
    expect("its state", True, (name, state) in [("T1", "TASK_ERROR"), ("T1", "TASK_LOST")] or state)


@case("the tasks of two LAUNCH operations of an ACCEPT share its offers")
def two_operations(run):
    _, framework = run.framework(events=ONE_OFFER)
    framework.read_offers("O1")
    body = launch(["O1"], task("T1", 0.6))
    body["operations"] += launch(["O1"], task("T2", 0.6), task("T3", 0.4))["operations"]
    framework.do("ACCEPT", body)
    updates = [framework.next() for _ in range(3)]
    expect("the updates", [("T1", "TASK_STARTING"), ("T2", "TASK_ERROR"), ("T3", "TASK_STARTING")], sorted(states(updates)))


@case("a port is given to one task: the second one that takes it gets TASK_ERROR, which names the ports")
def ports(run):
    def port(number):
        return {"name": "ports", "type": "RANGES", "ranges": {"range": [{"begin": number, "end": number}]}}

    made = offer("O1")
    made["resources"].append({"name": "ports", "type": "RANGES", "ranges": {"range": [{"begin": 31000, "end": 31001}]}})
    _, framework = run.framework(events=offers(made))
    framework.read_offers("O1")
    taken = [(f"T{at}", number) for at, number in enumerate((31000, 31000, 31001, 31002))]
    framework.do("ACCEPT", launch(["O1"], *(task(name) | {"resources": [port(number)]} for name, number in taken)))
    updates = sorted((framework.next() for _ in taken), key=lambda it: it["update"]["status"]["task_id"]["value"])
    wanted = [("T0", "TASK_STARTING"), ("T1", "TASK_ERROR"), ("T2", "TASK_STARTING"), ("T3", "TASK_ERROR")]
    expect("the updates", wanted, states(updates))
    said = [updates[at]["update"]["status"]["message"] for at in (1, 3)]
    expect(f"the messages {said} name the ports", [True, True], ["ports" in it for it in said])


@case("the ids of tasks may have any letters, and are reported as they were given")
def names_of_tasks(run):
    _, framework = run.framework(events=ONE_OFFER)
    framework.read_offers("O1")
    for name in ('ä"\\\n\u0001', "\U0001f600", 100_000 * "x"):
        framework.do("KILL", {"task_id": named(name)})
        framework.read_update(name, "TASK_LOST")
    framework.run_tasks(["O1"], task('ä"\\\n\u0001'))


@case("an ACCEPT that names an offer that is not outstanding gets TASK_LOST without a uuid for each task")
def offer_that_is_not_outstanding(run):
    _, framework = launched(run)
    framework.read_update("T1", "TASK_STARTING")
    for number, name in enumerate(("O1", "O9")):
        names = [f"X{number}", f"Y{number}"]
        framework.do("ACCEPT", launch([name], *map(task, names)))
        lost = [framework.next() for _ in names]
        expect(f"the updates for {name}", [(it, "TASK_LOST") for it in names], sorted(states(lost)))
        expect("their uuids", [False, False], ["uuid" in it["update"]["status"] for it in lost])
    framework.expect_nothing(0.5)


@case("an ACCEPT of an outstanding offer and another one launches nothing, and the outstanding one comes back")
def one_of_two_is_not_outstanding(run):
    _, framework = run.framework(events=ONE_OFFER)
    framework.read_offers("O1")
    framework.do("ACCEPT", launch(["O1", "O9"], task("T1"), task("T2")))
    lost = [framework.next(), framework.next()]
    expect("the updates", [("T1", "TASK_LOST"), ("T2", "TASK_LOST")], sorted(states(lost)))
    framework.read_offers("O1-2", limit=20)


@case("no task is launched twice: an ACCEPT of the same task on another offer does not start it again")
def task_launched_twice(run):
    _, framework = launched(run, made=TWO_OFFERS, names=("O1", "O2"))
    framework.step("T1", "TASK_STARTING")
    framework.step("T1", "TASK_RUNNING")
    framework.do("ACCEPT", launch(["O2"], task("T1"), task("T2")))
    updates = states(it for it in framework.stream.read_within(1) if it["type"] == "UPDATE")
    expect("the new task starts", True, ("T2", "TASK_STARTING") in updates)
    expect("the old task starts again", False, ("T1", "TASK_STARTING") in updates)


@case("two tasks of one id in an ACCEPT are one task")
def one_id_twice(run):
    _, framework = run.framework(events=ONE_OFFER)
    framework.read_offers("O1")
    framework.do("ACCEPT", launch(["O1"], task("T1", 0.25), task("T1", 0.25)))
    updates = states(it for it in framework.stream.read_within(1) if it["type"] == "UPDATE")
    expect("how often it starts", 1, updates.count(("T1", "TASK_STARTING")))


@case("an offer that tasks use is not offered until they have ended, and then by a new id")
def offer_in_use(run):
    _, framework = run.framework(events=ONE_OFFER)
    framework.read_offers("O1")
    framework.run_tasks(["O1"], task("T1", 0.25), task("T2", 0.25))
    framework.do("KILL", {"task_id": named("T1")})
    framework.step("T1", "TASK_KILLED")
    framework.do("REVIVE")
    framework.expect_nothing(1.5)
    framework.do("KILL", {"task_id": named("T2")})
    framework.step("T2", "TASK_KILLED")
    got = framework.read_offers("O1-2", limit=20)
    expect("all of it", [offer("O1-2")], got)


@case("KILL of a running task: TASK_KILLED with a uuid")
def kill(run):
    _, framework = run.framework(events=ONE_OFFER)
    framework.read_offers("O1")
    framework.run_tasks(["O1"], task("T1"))
    framework.do("KILL", {"task_id": named("T1"), "agent_id": named("A1")})
    status = framework.read_update("T1", "TASK_KILLED")
    expect("its uuid is there", True, bool(status.get("uuid")))
    expect("its agent", named("A1"), status["agent_id"])


@case("a second KILL of a task brings no second TASK_KILLED")
def kill_twice(run):
    _, framework = run.framework("--resend", "0", events=ONE_OFFER)
    framework.read_offers("O1")
    framework.run_tasks(["O1"], task("T1"))
    framework.do("KILL", {"task_id": named("T1")})
    framework.do("KILL", {"task_id": named("T1")})
    framework.step("T1", "TASK_KILLED")
    got = framework.stream.read_within(1)
    expect("TASK_KILLED again", False, ("T1", "TASK_KILLED") in states(got))


@case("KILL before TASK_STARTING is acknowledged: TASK_KILLED comes after the acknowledgement")
def kill_at_start(run):
    _, framework = launched(run)
    starting = framework.read_update("T1", "TASK_STARTING")
    framework.do("KILL", {"task_id": named("T1")})
    framework.expect_nothing(1)
    framework.acknowledge(starting)
    status = framework.next()["update"]["status"]
    if status["state"] == "TASK_RUNNING":
        framework.acknowledge(status)
        status = framework.next()["update"]["status"]
    expect("the last state", "TASK_KILLED", status["state"])


@case("KILL of an unknown task: TASK_LOST with REASON_RECONCILIATION, and no uuid")
def kill_of_an_unknown_task(run):
    _, framework = run.framework()
    for body in ({"task_id": named("T9")}, {"task_id": named("T9"), "agent_id": named("A9")}):
        framework.do("KILL", body)
        status = framework.read_update("T9", "TASK_LOST")
        expect("its reason", "REASON_RECONCILIATION", status.get("reason"))
        expect("its uuid", None, status.get("uuid"))


@case("SHUTDOWN: FAILURE of that executor on that agent")
def shutdown(run):
    _, framework = run.framework()
    framework.do("SHUTDOWN", {"executor_id": named("E7"), "agent_id": named("A7")})
    got = framework.next()
    expect("the event", "FAILURE", got["type"])
    body = got["failure"]
    expect("the executor and the agent", (named("E7"), named("A7")), (body.get("executor_id"), body.get("agent_id")))


@case("MESSAGE is echoed to the framework as MESSAGE")
def echo(run):
    _, framework = run.framework()
    for data in (b"", b"\x00\xff", 700_000 * b"a"):
        body = {"agent_id": named("A7"), "executor_id": named("E7"), "data": base64.b64encode(data).decode()}
        framework.do("MESSAGE", body)
        expect(f"a message of {len(data)} bytes", {"type": "MESSAGE", "message": body}, framework.next())


def read_reconciled(framework, count):
    """Reads updates of a RECONCILE, and returns their tasks, states, reasons and uuids."""
    updates = [framework.next()["update"]["status"] for _ in range(count)]
    return sorted((it["task_id"]["value"], it["state"], it.get("reason"), it.get("uuid")) for it in updates)


@case("RECONCILE that names no task: the last state of each; of a named task: its last state; of an unknown one: TASK_LOST")
def reconcile(run):
    _, framework = run.framework(events=TWO_OFFERS)
    framework.read_offers("O1", "O2")
    framework.run_tasks(["O1"], task("T1"))
    framework.do("ACCEPT", launch(["O2"], task("T2")))
    framework.read_update("T2", "TASK_STARTING")
    why = "REASON_RECONCILIATION"
    known = [("T1", "TASK_RUNNING", why, None), ("T2", "TASK_STARTING", why, None)]
    framework.do("RECONCILE", {})
    expect("the updates of all", known, read_reconciled(framework, 2))
    framework.do("RECONCILE", {"tasks": [{"task_id": named("T9"), "agent_id": named("A1")}, {"task_id": named("T1")}]})
    expect("the updates of two", [known[0], ("T9", "TASK_LOST", why, None)], read_reconciled(framework, 2))
    # No offer comes in between.
    framework.do("SUPPRESS")
    framework.do("KILL", {"task_id": named("T1")})
    framework.step("T1", "TASK_KILLED")
    framework.do("RECONCILE", {"tasks": [{"task_id": named("T1")}]})
    expect("the update of a task that has ended", [("T1", "TASK_KILLED", why, None)], read_reconciled(framework, 1))
    framework.expect_nothing(0.5)


@case("RECONCILE without a task: nothing comes")
def reconcile_nothing(run):
    _, framework = run.framework()
    framework.do("RECONCILE", {})
    framework.expect_nothing(0.5)


@case("--finish-after S: a running task ends with TASK_FINISHED after S seconds, and its offer comes back")
def finish_after(run):
    _, framework = run.framework("--finish-after", "2", events=ONE_OFFER)
    framework.read_offers("O1")
    begun = time.monotonic()
    framework.run_tasks(["O1"], task("T1"))
    running = time.monotonic()
    status = framework.read_update("T1", "TASK_FINISHED")
    expect_within("the seconds from the launch", 2, 15, time.monotonic() - begun)
    expect_within("the seconds from the acknowledgement", 1, 12, time.monotonic() - running)
    expect("its uuid is there", True, bool(status.get("uuid")))
    framework.acknowledge(status)
    framework.read_offers("O1-2", limit=20)


@case("--finish-after S: a task that was killed before does not finish")
def killed_before_it_finishes(run):
    _, framework = run.framework("--finish-after", "2", events=ONE_OFFER)
    framework.read_offers("O1")
    framework.run_tasks(["O1"], task("T1"))
    framework.do("KILL", {"task_id": named("T1")})
    framework.step("T1", "TASK_KILLED")
    got = framework.stream.read_within(4)
    expect("no update more", [], [it for it in got if it["type"] == "UPDATE"])


@case("without --finish-after a task runs on")
def task_runs_on(run):
    _, framework = run.framework(events=ONE_OFFER)
    framework.read_offers("O1")
    framework.run_tasks(["O1"], task("T1"))
    framework.expect_nothing(6)


@case("--resend S: an unacknowledged update comes again every S seconds, as it was, until its acknowledgement")
def resend(run):
    _, framework = launched(run, "--resend", "1")
    first, begun = framework.read_update("T1", "TASK_STARTING"), time.monotonic()
    for _ in range(3):
        expect("the update", first, framework.read_update("T1", "TASK_STARTING"))
    expect_within("the seconds of three", 2, 12, time.monotonic() - begun)
    framework.acknowledge(first)
    # One that was on its way may come before.
    while (status := framework.next()["update"]["status"]) == first:
        pass
    expect("the next state", "TASK_RUNNING", status["state"])
    framework.acknowledge(status)
    updates = [it["update"]["status"] for it in framework.stream.read_within(3)]
    expect("what follows the acknowledgement", [], [it for it in updates[1:] if it != status])
    expect("how often it follows it", True, len(updates) <= 1)


@case("the default of --resend is 10 seconds")
def default_resend(run):
    _, framework = launched(run)
    first, begun = framework.read_update("T1", "TASK_STARTING"), time.monotonic()
    expect("the update", first, framework.read_update("T1", "TASK_STARTING"))
    expect_within("the seconds", 9, 20, time.monotonic() - begun)


@case("--resend 0: an update does not come again on its stream, but on the next one")
def never_resend(run):
    master, framework = launched(run, "--resend", "0")
    first = framework.read_update("T1", "TASK_STARTING")
    framework.expect_nothing(12)
    expect("the update", first, Framework(master.port).read_update("T1", "TASK_STARTING"))


@case("the updates of a task are STARTING, RUNNING and one last state across streams, each again until it is acknowledged")
def across_streams(run):
    master, framework = launched(run, "--resend", "0")
    for state in ("TASK_STARTING", "TASK_RUNNING", "TASK_KILLED"):
        if state == "TASK_KILLED":
            framework.do("KILL", {"task_id": named("T1")})
        first = framework.read_update("T1", state)
        for _ in range(2):
            framework.stream.reset()
            framework = Framework(master.port)
            expect(f"{state} on a new stream", first, framework.read_update("T1", state))
        framework.acknowledge(first)
    # It may have been offered since TASK_KILLED was first sent.
    name = framework.next()["offers"]["offers"][0]["id"]["value"]
    expect("the offer is back by a new id", True, name.startswith("O1-") or name)
