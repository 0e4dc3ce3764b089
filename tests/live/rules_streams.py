"""Cases of streams: SUBSCRIBE, HEARTBEAT, take-over, a stream that broke, the statuses of calls, TEARDOWN."""
import time

from messages import INFO, SUBSCRIBE, call, event, launch, message, named, offer, offers, records, task
from runs import Framework, case, expect, expect_within
from wire import Stream, request

TWO_OFFERS = offers(offer("O1"), offer("O2", "A2", 2.5))
BEAT = {"type": "HEARTBEAT"}
# The calls but SUBSCRIBE and TEARDOWN, which ends the stream.
CALLS = [
    ("ACCEPT", launch(["O9"])),
    ("DECLINE", {"offer_ids": [named("O9")]}),
    ("REVIVE", None),
    ("SUPPRESS", None),
    ("KILL", {"task_id": named("T9")}),
    ("ACKNOWLEDGE", {"agent_id": named("A1"), "task_id": named("T9"), "uuid": "AAECAwQFBgcICQoLDA0ODw=="}),
    ("RECONCILE", {}),
    ("SHUTDOWN", {"executor_id": named("E1"), "agent_id": named("A1")}),
    ("MESSAGE", message(1)),
]


@case("SUBSCRIBE gets 200 and a chunked stream of JSON that has an id")
def head_of_a_stream(run):
    head = Stream(run.master().port, request(SUBSCRIBE)).head
    expect("the status", "200", head.status)
    expect("Content-Type", "application/json", head.fields.get("content-type"))
    expect("Transfer-Encoding", "chunked", head.fields.get("transfer-encoding"))
    expect("Content-Length", None, head.fields.get("content-length"))
    expect("Mesos-Stream-Id is there", True, bool(head.fields.get("mesos-stream-id")))


@case("on SUBSCRIBE come SUBSCRIBED with the interval of --heartbeat, a HEARTBEAT, and then the free offers as they were given")
def order_of_a_stream(run):
    framework = Framework(run.master("--heartbeat", "7", events=TWO_OFFERS).port)
    expect("SUBSCRIBED", {"framework_id": named(framework.id), "heartbeat_interval_seconds": 7.0}, framework.first["subscribed"])
    expect("the second event", BEAT, framework.stream.read_event())
    got = framework.read_offers("O1", "O2")
    expect("the offers", [offer("O1"), offer("O2", "A2", 2.5)], got)
    framework.expect_nothing(0.5)


@case("the default of --heartbeat is 15 seconds, and SUBSCRIBED says so")
def default_interval(run):
    _, framework = run.framework()
    expect("the interval", 15.0, framework.first["subscribed"]["heartbeat_interval_seconds"])


@case("a HEARTBEAT comes every S seconds of --heartbeat S")
def heartbeats(run):
    _, framework = run.framework("--heartbeat", "1")
    times = [time.monotonic()]
    for _ in range(4):
        expect("the event", BEAT, framework.stream.read_event())
        times.append(time.monotonic())
    # A beat that came late may be followed early by the next one.
    expect_within("the seconds of four beats", 3, 12, times[-1] - times[0])
    framework.do("REVIVE")


@case("on a new stream come SUBSCRIBED, a HEARTBEAT, each update that is unacknowledged, and then the free offers")
def order_of_a_second_stream(run):
    master, first = run.framework("--resend", "0", events=TWO_OFFERS)
    first.read_offers("O1", "O2")
    first.do("ACCEPT", launch(["O1"], task("T1", 0.5), task("T2", 0.5)))
    sent = [first.next(), first.next()]
    second = Framework(master.port)
    expect("the second event", BEAT, second.stream.read_event())
    again = [second.stream.read_event(), second.stream.read_event()]
    key = lambda update: update["update"]["status"]["task_id"]["value"]
    expect("the updates", sorted(sent, key=key), sorted(again, key=key))
    second.read_offers("O2-2")
    second.expect_nothing(0.5)


@case("an acknowledged update does not come again on a new stream")
def acknowledged_is_not_sent_again(run):
    master, first = run.framework("--resend", "0", events=TWO_OFFERS)
    first.read_offers("O1", "O2")
    first.run_tasks(["O1"], task("T1"))
    second = Framework(master.port)
    second.read_offers("O2-2")
    second.expect_nothing(0.5)


@case("an offer that comes back has a new id: O1, O1-2, O1-3")
def new_ids(run):
    master, first = run.framework(events=offers(offer("O1", cpus=1.5)))
    first.read_offers("O1")
    second = Framework(master.port).read_offers("O1-2")
    third = Framework(master.port).read_offers("O1-3")
    for got, name in ((second, "O1-2"), (third, "O1-3")):
        expect("all but the id is as it was", [offer(name, cpus=1.5)], got)


@case("a second SUBSCRIBE takes over: the old stream gets ERROR 'Framework failed over' and its last chunk")
def take_over(run):
    master, first = run.framework()
    second = Framework(master.port)
    expect("the last event", event("ERROR", message="Framework failed over"), first.next())
    expect("the end", None, first.next())
    expect("the old stream's id", "400", master.ask(first.bytes_of("REVIVE")))
    expect("the new stream's id", "202", second.ask("REVIVE"))
    expect("the ids differ", True, first.stream.id != second.stream.id)


@case("a framework that subscribes again by its id takes over too, whatever stream it names")
def take_over_by_id(run):
    master, first = run.framework()
    by_id = {"framework_id": named(first.id), "subscribe": {"framework_info": INFO | {"id": named(first.id)}}}
    second = Framework(master.port, more=by_id, stream=first.stream.id)
    expect("the last event of the first", event("ERROR", message="Framework failed over"), first.next())
    expect("the framework", first.id, second.id)
    third = Framework(master.port, more=by_id, stream="s1")
    expect("the last event of the second", BEAT, second.stream.read_event())
    expect("the last event of the second", event("ERROR", message="Framework failed over"), second.next())
    third.do("REVIVE")


@case("a take-over ends the offers of the old stream: each is on the new one by a new id")
def offers_of_the_old_stream(run):
    master, first = run.framework(events=TWO_OFFERS)
    first.read_offers("O1", "O2")
    second = Framework(master.port)
    second.read_offers("O1-2", "O2-2")
    second.do("ACCEPT", launch(["O1"], task("T1")))
    second.read_update("T1", "TASK_LOST")
    second.run_tasks(["O1-2"], task("T2"))


def expect_broken(run, end, wait):
    """Ends a stream so, waits, and expects that it is no longer current."""
    master, first = run.framework("--heartbeat", "1", "--resend", "0", events=TWO_OFFERS)
    first.read_offers("O1", "O2")
    first.do("ACCEPT", launch(["O2"], task("T2", agent="A2")))
    sent = first.read_update("T2", "TASK_STARTING")
    revive = first.bytes_of("REVIVE")
    end(first.stream)
    expect("the status of a call by its id", "403", master.wait_for_status(revive, "403", wait))
    second = Framework(master.port)
    expect("the update comes again", sent, second.read_update("T2", "TASK_STARTING"))
    second.read_offers("O1-2")
    second.do("ACCEPT", launch(["O1"], task("T1")))
    second.read_update("T1", "TASK_LOST")


@case("a stream whose connection is reset is no longer current: calls by its id get 403, its offers are gone")
def stream_that_is_reset(run):
    expect_broken(run, lambda stream: stream.reset(), 15)


@case("a stream whose client has closed it is no longer current, within two heartbeats")
def stream_that_is_closed(run):
    expect_broken(run, lambda stream: stream.close(), 15)


@case("before a SUBSCRIBE each call gets 403")
def before_a_stream(run):
    master = run.master()
    for name, body in [*CALLS, ("TEARDOWN", None)]:
        expect(name, "403", master.ask(request(call(name, body=body), "s1")))


@case("on a stream a call gets 202, one that names another stream or none 400, another framework 403")
def statuses(run):
    master, framework = run.framework()
    for name, body in CALLS:
        expect(f"{name} on the stream", "202", framework.ask(name, body))
        expect(f"{name} on another", "400", master.ask(request(call(name, framework.id, body), "s1")))
        expect(f"{name} on none", "400", master.ask(request(call(name, framework.id, body))))
        expect(f"{name} of another framework", "403", master.ask(request(call(name, "F9", body), framework.stream.id)))
    subscribe = SUBSCRIBE | {"framework_id": named("F9")}
    expect("SUBSCRIBE of another framework", "403", master.ask(request(subscribe)))
    framework.do("REVIVE")


@case("TEARDOWN gets 202 and ends the stream with its last chunk, and everything is 403 after it")
def teardown(run):
    master, framework = run.framework(events=TWO_OFFERS)
    framework.read_offers("O1", "O2")
    framework.run_tasks(["O1"], task("T1"))
    framework.do("TEARDOWN")
    expect("the end of the stream", None, framework.next())
    for name, body in [*CALLS, ("TEARDOWN", None)]:
        expect(name, "403", master.ask(framework.bytes_of(name, body)))
    for more in ({}, {"framework_id": named(framework.id)}):
        expect(f"SUBSCRIBE with {more}", "403", master.ask(request(SUBSCRIBE | more)))


@case("the events of the input that came without a stream go out on the next one")
def events_before_a_stream(run):
    given = [
        event("MESSAGE", **message(1)),
        event("FAILURE", agent_id=named("A1"), executor_id=named("E1"), status=1),
        event("ERROR", message="m"),
    ]
    _, framework = run.framework(events=records(*given))
    expect("the events", given, [framework.next() for _ in given])
    framework.expect_nothing(0.5)


@case("--most M cuts the stream into chunks of at most M bytes")
def small_chunks(run):
    _, framework = run.framework("--most", "7", events=offers(offer("O1")))
    framework.read_offers("O1")
    expect("the largest chunk", 7, max(framework.stream.sizes))
    framework.run_tasks(["O1"], task("T1"))
    expect("the largest chunk", 7, max(framework.stream.sizes))


@case("--most 1 sends a chunk for each byte, and a large record comes whole")
def chunks_of_a_byte(run):
    text = 100_000 * "ä"
    _, framework = run.framework("--most", "1", events=records(event("ERROR", message=text)))
    expect("the message", text, framework.next()["error"]["message"])
    expect("the sizes of the chunks", {1}, set(framework.stream.sizes))


def expect_end_line(master, framework, why):
    """Expects the line of the end of a framework's stream, and that it is opened and ended once."""
    wanted = f"stream {framework.stream.id} ended {why}"
    expect(f"the line {wanted!r} comes", True, master.wait_for_line(lambda line: line == wanted, 10))
    got = [line for line in master.lines if line.startswith(f"stream {framework.stream.id} ")]
    expect("the lines of the stream", [f"stream {framework.stream.id} opened", wanted], got)


@case("each stream has a line when it is opened, and one when it ends: replaced, closed, teardown")
def lines_of_streams(run):
    master, first = run.framework("--heartbeat", "1")
    second = Framework(master.port)
    expect_end_line(master, first, "replaced")
    second.stream.reset()
    expect_end_line(master, second, "closed")
    third = Framework(master.port)
    third.stream.close()
    expect_end_line(master, third, "closed")
    fourth = Framework(master.port)
    fourth.do("TEARDOWN")
    expect_end_line(master, fourth, "teardown")
