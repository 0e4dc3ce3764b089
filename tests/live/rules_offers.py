"""Cases of offers: the stock, DECLINE and its filter, REVIVE, SUPPRESS, RESCIND."""
import time

from messages import event, launch, named, offer, offers, records, task
from runs import Framework, case, expect, expect_within
from support import record
from wire import text_of

ONE_OFFER = offers(offer("O1"))


def declined(run, **filters):
    """Returns a framework that has declined O1 with these filters, and the time of it."""
    _, framework = run.framework(events=ONE_OFFER)
    framework.read_offers("O1")
    begun = time.monotonic()
    framework.do("DECLINE", {"offer_ids": [named("O1")]} | ({"filters": filters} if filters else {}))
    return framework, begun


@case("DECLINE: the offer comes again after refuse_seconds, by a new id")
def refuse_seconds(run):
    framework, begun = declined(run, refuse_seconds=2.0)
    framework.read_offers("O1-2")
    expect_within("the seconds", 1.9, 4.8, time.monotonic() - begun)


@case("DECLINE without refuse_seconds: the offer comes again after 5 seconds")
def default_of_refuse_seconds(run):
    framework, begun = declined(run)
    framework.read_offers("O1-2")
    expect_within("the seconds", 4.9, 15, time.monotonic() - begun)


@case("DECLINE with refuse_seconds 0: the offer comes again at once")
def refuse_for_no_time(run):
    framework, begun = declined(run, refuse_seconds=0)
    framework.read_offers("O1-2")
    expect_within("the seconds", 0, 4.8, time.monotonic() - begun)


@case("DECLINE with a part of a second as refuse_seconds")
def refuse_for_a_part_of_a_second(run):
    framework, begun = declined(run, refuse_seconds=0.5)
    framework.read_offers("O1-2")
    expect_within("the seconds", 0.4, 4.8, time.monotonic() - begun)


@case("DECLINE with the largest refuse_seconds: the offer does not come again by itself, but after REVIVE")
def refuse_for_ever(run):
    framework, _ = declined(run, refuse_seconds=1e12)
    framework.expect_nothing(1.5)
    framework.do("REVIVE")
    framework.read_offers("O1-2", limit=15)


@case("REVIVE clears the wait of an offer that was declined")
def revive(run):
    framework, _ = declined(run, refuse_seconds=1000)
    framework.expect_nothing(1)
    framework.do("REVIVE")
    framework.read_offers("O1-2", limit=15)


@case("REVIVE where every offer is outstanding or in use sends nothing")
def revive_nothing(run):
    _, framework = run.framework(events=offers(offer("O1"), offer("O2")))
    framework.read_offers("O1", "O2")
    framework.run_tasks(["O1"], task("T1"))
    framework.do("REVIVE")
    framework.expect_nothing(1)


@case("SUPPRESS stops offers until REVIVE: those of the input too")
def suppress(run):
    master, framework = run.framework(events=ONE_OFFER, stdin="pipe")
    framework.read_offers("O1")
    framework.do("SUPPRESS")
    framework.do("DECLINE", {"offer_ids": [named("O1")], "filters": {"refuse_seconds": 0}})
    master.feed(offers(offer("O2")))
    framework.expect_nothing(1.5)
    framework.do("REVIVE")
    names = sorted(it["id"]["value"] for it in read_any_offers(framework, 2))
    expect("the offers", ["O1-2", "O2"], names)


def read_any_offers(framework, count):
    got = []
    while len(got) < count:
        got += framework.next()["offers"]["offers"]
    return got


@case("SUPPRESS does not take back an offer that is outstanding")
def suppress_leaves_offers(run):
    _, framework = run.framework(events=ONE_OFFER)
    framework.read_offers("O1")
    framework.do("SUPPRESS")
    framework.run_tasks(["O1"], task("T1"))


@case("DECLINE of two offers, of which one is not outstanding: the other one comes again")
def decline_of_two(run):
    _, framework = run.framework(events=ONE_OFFER)
    framework.read_offers("O1")
    framework.do("DECLINE", {"offer_ids": [named("O9"), named("O1")], "filters": {"refuse_seconds": 0}})
    framework.read_offers("O1-2", limit=15)


@case("an ACCEPT that launches nothing: the offer is offered again")
def accept_without_tasks(run):
    _, framework = run.framework(events=ONE_OFFER)
    framework.read_offers("O1")
    framework.do("ACCEPT", launch(["O1"]))
    framework.read_offers("O1-2", limit=20)


@case("an offer that was declined is not offered on a new stream before its wait is over")
def wait_across_streams(run):
    master, first = run.framework(events=offers(offer("O1"), offer("O2")))
    first.read_offers("O1", "O2")
    begun = time.monotonic()
    first.do("DECLINE", {"offer_ids": [named("O1")], "filters": {"refuse_seconds": 3}})
    second = Framework(master.port)
    second.read_offers("O2-2")
    second.read_offers("O1-2")
    expect_within("the seconds", 2.9, 15, time.monotonic() - begun)


@case("OFFERS of the input join the stock while the master runs, and go out at once")
def offers_while_it_runs(run):
    master, framework = run.framework(events=ONE_OFFER, stdin="pipe")
    framework.read_offers("O1")
    for number in range(2, 6):
        master.feed(offers(offer(f"O{number}")))
        framework.read_offers(f"O{number}", limit=15)
    framework.run_tasks(["O4"], task("T1"))
    second = Framework(master.port)
    names = sorted(it["id"]["value"] for it in read_any_offers(second, 4))
    expect("the offers of a new stream", ["O1-2", "O2-2", "O3-2", "O5-2"], names)


@case("OFFERS as a bare array join the stock too")
def bare_array(run):
    text = text_of({"type": "OFFERS", "offers": [offer("O1")]})
    _, framework = run.framework(events=record(text))
    framework.read_offers("O1")


@case("RESCIND of the input goes out, and its offer is no longer outstanding")
def rescind(run):
    master, framework = run.framework(events=offers(offer("O1"), offer("O2")), stdin="pipe")
    framework.read_offers("O1", "O2")
    taken = event("RESCIND", offer_id=named("O1"))
    master.feed(records(taken))
    expect("the event", taken, framework.next(15))
    framework.do("ACCEPT", launch(["O1"], task("T1")))
    framework.read_update("T1", "TASK_LOST")
    framework.run_tasks(["O2"], task("T2"))


@case("no id is offered twice, though the input has offers of the ids O1, O1-2 and O1 again")
def ids_that_collide(run):
    master, framework = run.framework(events=offers(offer("O1"), offer("O1-2")) + offers(offer("O1")))
    names = []
    for _ in range(3):
        names += [it["id"]["value"] for event in framework.stream.read_within(0.7) for it in event["offers"]["offers"]]
        framework = Framework(master.port)
    expect("the ids", sorted(set(names)), sorted(names))
    expect("each stream has offers", True, len(names) >= 6)


@case("1,000 offers are offered, and 300 tasks on one of them run")
def many(run):
    _, framework = run.framework("--resend", "0", events=offers(*(offer(f"O{number}") for number in range(1000))))
    framework.read_offers(*(f"O{number}" for number in range(1000)))
    framework.run_tasks(["O7"], *(task(f"T{number}", 0.001, mem=0.1) for number in range(300)))
    framework.do("DECLINE", {"offer_ids": [named(f"O{number}") for number in range(8, 1000)], "filters": {"refuse_seconds": 0}})
    framework.read_offers(*(f"O{number}-2" for number in range(8, 1000)))
