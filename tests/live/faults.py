"""Cases of faults: events of standard input that have the master lose, repeat or hold back events, break a stream, or be busy."""
import time

from messages import SUBSCRIBE, event, launch, offer, offers, records, task
from runs import Framework, case, expect
from wire import Broken, request

BUSY, LOSE, TWICE, MUTE, SPEAK, BREAK = ({"type": it} for it in ("BUSY", "LOSE", "TWICE", "MUTE", "SPEAK", "BREAK"))


def failure(name):
    """Returns an event that the master passes on."""
    return event("FAILURE", agent_id={"value": name})


def names_of(events):
    return [it["failure"]["agent_id"]["value"] if it and "failure" in it else it and it["type"] for it in events]


def begun(run, *options, events=""):
    """Starts a master whose input stays open, and a framework on it."""
    return run.framework(*options, events=events, stdin="pipe")


def expect_names(framework, *wanted):
    expect("the next events", list(wanted), names_of(framework.next() for _ in wanted))


@case("after LOSE the next event is not sent, and the one after it is")
def lose(run):
    master, framework = begun(run)
    master.feed(records(LOSE, failure("lost"), failure("sent")))
    expect_names(framework, "sent")
    framework.expect_nothing(0.3)


@case("after TWICE the next event is sent twice, and the one after it once")
def twice(run):
    master, framework = begun(run)
    master.feed(records(TWICE, failure("twice"), failure("once")))
    expect_names(framework, "twice", "twice", "once")
    framework.expect_nothing(0.3)


@case("of two LOSE and a TWICE before an event the last one counts")
def last_counts(run):
    master, framework = begun(run)
    master.feed(records(LOSE, LOSE, TWICE, failure("twice"), failure("once")))
    expect_names(framework, "twice", "twice", "once")


@case("a HEARTBEAT of the master itself is neither lost nor repeated by LOSE and TWICE")
def not_a_beat(run):
    master, framework = begun(run, "--heartbeat", "1")
    for fault, wanted in ((LOSE, []), (TWICE, ["late", "late"])):
        master.feed(records(fault))
        expect("the next event", {"type": "HEARTBEAT"}, framework.stream.read_event())
        expect("the next event", {"type": "HEARTBEAT"}, framework.stream.read_event())
        master.feed(records(failure("late"), failure("end")))
        expect_names(framework, *wanted, "end")


@case("an update that was lost comes again after --resend, and on a new stream")
def lost_update(run):
    master, framework = begun(run, "--resend", "1", events=offers(offer("O1")))
    framework.read_offers("O1")
    master.feed(records(LOSE))
    framework.do("ACCEPT", launch(["O1"], task("T1")))
    begin = time.monotonic()
    framework.step("T1", "TASK_STARTING")
    expect("the update came late", True, time.monotonic() - begin > 0.5)
    framework.read_update("T1", "TASK_RUNNING")
    Framework(master.port)
    second = Framework(master.port)
    second.step("T1", "TASK_RUNNING")


@case("an update that is sent twice is acknowledged once")
def repeated_update(run):
    master, framework = begun(run, "--resend", "0", events=offers(offer("O1")))
    framework.read_offers("O1")
    master.feed(records(TWICE))
    framework.do("ACCEPT", launch(["O1"], task("T1")))
    first, again = framework.next(), framework.next()
    expect("the second update", first, again)
    framework.acknowledge(first["update"]["status"])
    framework.step("T1", "TASK_RUNNING")


@case("a MUTE stream stays open, and nothing is sent on it until SPEAK, no HEARTBEAT either")
def mute(run):
    master, framework = begun(run, "--heartbeat", "1")
    master.feed(records(failure("before"), MUTE, failure("lost")))
    expect_names(framework, "before")
    expect("the stream is quiet", True, framework.stream.is_quiet(2.5))
    framework.do("REVIVE")
    master.feed(records(SPEAK, failure("after")))
    expect_names(framework, "after")
    expect("the next event", {"type": "HEARTBEAT"}, framework.stream.read_event())


@case("a new stream is not muted, and an update that was not sent comes there")
def mute_ends(run):
    master, framework = begun(run, "--resend", "0", events=offers(offer("O1")))
    framework.read_offers("O1")
    master.feed(records(MUTE))
    framework.do("ACCEPT", launch(["O1"], task("T1")))
    expect("the stream is quiet", True, framework.stream.is_quiet(0.5))
    second = Framework(master.port)
    second.step("T1", "TASK_STARTING")
    second.step("T1", "TASK_RUNNING")


@case("BREAK closes the stream after the events before it; those after it come on the next stream")
def break_stream(run):
    master, framework = begun(run)
    master.feed(records(failure("before"), BREAK, failure("later"), failure("last")))
    expect_names(framework, "before")
    try:
        got = framework.stream.read_event()
    except Broken as error:
        got = str(error)
    except ConnectionResetError:
        got = "the connection ended before the last chunk"
    expect("the end of the stream", "the connection ended before the last chunk", got)
    expect("its line", True, master.wait_for_line(lambda line: line == f"stream {framework.stream.id} ended broken"))
    expect("the status of a call on the stream", "403", framework.ask("REVIVE"))
    second = Framework(master.port)
    expect_names(second, "later", "last")
    second.do("REVIVE")


@case("a LOSE or TWICE before a BREAK does not concern the next stream")
def fault_ends(run):
    for fault in (LOSE, TWICE):
        master, framework = begun(run)
        master.feed(records(fault, BREAK))
        expect("its line", True, master.wait_for_line(lambda line: line == f"stream {framework.stream.id} ended broken"))
        second = Framework(master.port)
        master.feed(records(failure("a"), failure("b")))
        expect_names(second, "a", "b")
        second.expect_nothing(0.3)


@case("offers and updates come again after a BREAK")
def break_and_again(run):
    master, framework = begun(run, "--resend", "0", events=offers(offer("O1"), offer("O2", "A2")))
    framework.read_offers("O1", "O2")
    framework.do("ACCEPT", launch(["O1"], task("T1")))
    framework.read_update("T1", "TASK_STARTING")
    master.feed(records(BREAK))
    expect("its line", True, master.wait_for_line(lambda line: line.endswith(" ended broken")))
    second = Framework(master.port)
    expect("the second event", {"type": "HEARTBEAT"}, second.stream.read_event())
    second.read_update("T1", "TASK_STARTING")
    second.read_offers("O2-2")


@case("several BREAKs without a stream break one stream each")
def breaks_wait(run):
    master = run.master(events=records(BREAK, failure("a"), BREAK, failure("b")), stdin="pipe")
    first = Framework(master.port)
    expect("the first line of an end", True, master.wait_for_line(lambda line: line == f"stream {first.stream.id} ended broken"))
    second = Framework(master.port)
    expect_names(second, "a")
    expect("the second line of an end", True, master.wait_for_line(lambda line: line == f"stream {second.stream.id} ended broken"))
    third = Framework(master.port)
    expect_names(third, "b")
    third.do("REVIVE")


@case("BUSY: the next call is answered 503 and not carried out; two BUSYs are for two calls")
def busy(run):
    master, framework = begun(run, events=offers(offer("O1")))
    framework.read_offers("O1")
    master.feed(records(BUSY, BUSY, failure("read")))
    expect_names(framework, "read")
    expect("the status of the first call", "503", framework.ask("ACCEPT", launch(["O1"], task("T1"))))
    expect("the status of the second call", "503", framework.ask("DECLINE", {"offer_ids": [{"value": "O1"}]}))
    framework.do("ACCEPT", launch(["O1"], task("T1")))
    framework.step("T1", "TASK_STARTING")
    expect("the line", True, master.wait_for_line(lambda line: line == "503 ACCEPT"))


@case("BUSY is for a SUBSCRIBE too, and a body that is no call does not use it up")
def busy_at_first(run):
    master = run.master(events=records(BUSY), stdin="pipe")
    expect("the status of a body that is no call", "400", master.ask(request(b"{}")))
    expect("the status of a SUBSCRIBE", "503", master.ask(request(SUBSCRIBE)))
    Framework(master.port).do("REVIVE")


@case("an event of another name is passed on, and so are names in lower case")
def other_names(run):
    master, framework = begun(run)
    master.feed(records({"type": "LOSES"}, {"type": "busy"}, {"type": "INVERSE_OFFERS"}))
    expect_names(framework, "LOSES", "busy", "INVERSE_OFFERS")
    framework.do("REVIVE")


@case("a file of events and faults is taken in its order")
def from_a_file(run):
    _, framework = run.framework(events=records(failure("a"), TWICE, failure("b"), LOSE, failure("c"), failure("d"), MUTE, failure("e")))
    expect_names(framework, "a", "b", "b", "d")
    expect("the stream is quiet", True, framework.stream.is_quiet(0.5))
