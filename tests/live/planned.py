"""Cases of planned faults: the options --fault, --faults and --seed."""
import subprocess
import time

from faults import expect_names, failure
from messages import SUBSCRIBE, launch, offer, offers, records, task
from runs import Framework, case, expect, expect_within
from wire import LIMIT, Broken, Connection, Stream, request, text_of

# Events 2, 3 and 4 of a run: event 1 is SUBSCRIBED, and the HEARTBEATs of the master are not counted.
A, B, C = failure("a"), failure("b"), failure("c")


def faulty(run, *faults, events=records(A, B, C), options=(), **how):
    """Starts a master with these faults, and a framework on it."""
    words = [word for fault in faults for word in ("--fault", fault)]
    return run.framework(*words, *options, events=events, **how)


def expect_line(master, wanted):
    expect(f"the line {wanted!r}", True, master.wait_for_line(lambda line: line == wanted))


def fault_lines(master):
    return [line for line in master.lines if line.startswith("fault ")]


def end_of(stream):
    """Returns the events up to the end of a stream, and how it ended."""
    events = []
    try:
        while (it := stream.read_event()) is not None:
            events.append(it)
    except Broken as error:
        return events, str(error)
    except ConnectionResetError:
        return events, "reset"
    return events, "last chunk"


@case("lose:K: event K is not sent, and the fault has a line")
def lose(run):
    master, framework = faulty(run, "lose:3")
    expect_names(framework, "a", "c")
    expect_line(master, "fault lose:3")
    framework.expect_nothing(0.3)


@case("twice:K: event K is sent twice")
def twice(run):
    master, framework = faulty(run, "twice:2")
    expect_names(framework, "a", "a", "b", "c")
    expect_line(master, "fault twice:2")


@case("cut:K:B: the stream ends after B bytes of the record of event K; the events after it come on the next stream")
def cut(run):
    master, framework = faulty(run, "cut:3:10")
    record_b = records(B).encode()
    expect_names(framework, "a")
    rest, how = framework.stream.read_rest()
    expect("how the connection ended", "end", how)
    expect("the last bytes", b"a\r\n" + record_b[:10] + b"\r\n", bytes(rest))
    expect_line(master, f"stream {framework.stream.id} ended broken")
    second = Framework(master.port)
    expect("the event after SUBSCRIBED", {"type": "HEARTBEAT"}, second.stream.read_event())
    expect_names(second, "c")
    expect("the lines of faults", ["fault cut:3:10"], fault_lines(master))


@case("cut:1:0: a stream ends before its first byte")
def cut_at_first(run):
    master = run.master("--fault", "cut:1:0", events=records(A))
    stream = Stream(master.port, request(SUBSCRIBE))
    expect("the status", "200", stream.head.status)
    expect("what comes", (b"", "end"), stream.read_rest())
    second = Framework(master.port)
    expect("the event after SUBSCRIBED", {"type": "HEARTBEAT"}, second.stream.read_event())
    expect_names(second, "a")


@case("cut:K:B with more bytes than the record has: the stream ends after the record")
def cut_after(run):
    _, framework = faulty(run, "cut:2:1000000")
    events, how = end_of(framework.stream)
    expect("the events", [A], events)
    expect("how the stream ended", "the connection ended before the last chunk", how)


@case("late:K:S: event K comes S seconds later, and what follows it comes after it")
def late(run):
    begin = time.monotonic()
    master, framework = faulty(run, "late:3:2", options=("--heartbeat", "1"))
    expect_names(framework, "a")
    expect_within("the time of the first event", 0, 1.5, time.monotonic() - begin)
    expect_names(framework, "b", "c")
    expect_within("the time of the late events", 1.9, 20, time.monotonic() - begin)
    expect_line(master, "fault late:3:2")
    framework.do("REVIVE")


@case("late:K:S: a TEARDOWN ends the stream at once, with the late events")
def late_and_ended(run):
    _, framework = faulty(run, "late:2:1000")
    framework.do("TEARDOWN")
    events, how = end_of(framework.stream)
    expect("the events", ([A, B, C], "last chunk"), (events, how))


@case("mute:K: event K is sent, and nothing after it, no HEARTBEAT either; the next stream is not muted")
def mute(run):
    master, framework = faulty(run, "mute:2", options=("--heartbeat", "1"))
    expect_names(framework, "a")
    expect("the stream is quiet", True, framework.stream.is_quiet(2.5))
    framework.do("REVIVE")
    second = Framework(master.port)
    expect("the event after SUBSCRIBED", {"type": "HEARTBEAT"}, second.stream.read_event())
    expect("the next event", {"type": "HEARTBEAT"}, second.stream.read_event())


@case("busy:K: call K is answered 503 and not carried out; calls are counted from the first SUBSCRIBE on")
def busy(run):
    master, framework = faulty(run, "busy:2", events=offers(offer("O1")))
    framework.read_offers("O1")
    expect("the status of a call", "503", framework.ask("ACCEPT", launch(["O1"], task("T1"))))
    framework.do("ACCEPT", launch(["O1"], task("T1")))
    framework.step("T1", "TASK_STARTING")
    expect_line(master, "503 ACCEPT")
    expect_line(master, "fault busy:2")


@case("busy:1: the first SUBSCRIBE is answered 503; a body that is no call is not counted")
def busy_at_first(run):
    master = run.master("--fault", "busy:1")
    expect("the status of a body that is no call", "400", master.ask(request(b"{}")))
    expect("the status of a SUBSCRIBE", "503", master.ask(request(SUBSCRIBE)))
    Framework(master.port).do("REVIVE")


@case("unanswered:K: call K is carried out, and its connection is closed without a response")
def unanswered(run):
    master, framework = faulty(run, "unanswered:2", events=offers(offer("O1")))
    framework.read_offers("O1")
    connection = master.connect()
    connection.send(framework.bytes_of("ACCEPT", launch(["O1"], task("T1"))))
    expect("what comes", (b"", "end"), connection.read_rest())
    framework.step("T1", "TASK_STARTING")
    expect_line(master, "fault unanswered:2")
    framework.do("REVIVE")


@case("unanswered:1: a SUBSCRIBE is carried out, and its connection is closed without a response")
def unanswered_subscribe(run):
    master = run.master("--fault", "unanswered:1", events=records(A))
    connection = master.connect()
    connection.send(request(SUBSCRIBE))
    expect("what comes", (b"", "end"), connection.read_rest())
    expect("the line of its end", True, master.wait_for_line(lambda line: line.endswith(" ended closed")))
    framework = Framework(master.port)
    framework.do("REVIVE")


@case("slow:K:S: call K is carried out at once and answered S seconds later; other calls are answered meanwhile")
def slow(run):
    master, framework = faulty(run, "slow:2:2", events=offers(offer("O1")))
    framework.read_offers("O1")
    connection, begin = master.connect(), time.monotonic()
    connection.send(framework.bytes_of("ACCEPT", launch(["O1"], task("T1"))))
    framework.step("T1", "TASK_STARTING")
    framework.do("REVIVE")
    expect_within("the time of the other calls", 0, 1.8, time.monotonic() - begin)
    expect("the status", "202", connection.read_response().status)
    expect_within("the time of the response", 1.9, 20, time.monotonic() - begin)
    expect("the status of a call on that connection", "202", connection.ask(framework.bytes_of("REVIVE")))


@case("slow:1:S: the response to a SUBSCRIBE comes S seconds later, and its stream with it")
def slow_subscribe(run):
    begin = time.monotonic()
    _, framework = faulty(run, "slow:1:1")
    expect_within("the time of the response", 0.9, 20, time.monotonic() - begin)
    expect_names(framework, "a", "b", "c")


@case("slow:K:S: of two calls on a connection the second response comes after the first")
def slow_and_next(run):
    master, framework = faulty(run, "slow:2:1")
    connection, begin = master.connect(), time.monotonic()
    connection.send(framework.bytes_of("REVIVE") + framework.bytes_of("KILL"))
    expect("the statuses", ["202", "400"], [connection.read_response().status for _ in range(2)])
    expect_within("the time of the responses", 0.9, 20, time.monotonic() - begin)


@case("slow:K:S: calls that came while too many responses waited are answered after the late one")
def slow_and_many(run):
    master, framework = faulty(run, "slow:2:1")
    connection, count = master.connect(), 3000
    connection.send(framework.bytes_of("REVIVE") * count)
    expect("the statuses", {"202"}, {connection.read_response().status for _ in range(count)})


@case("gone:K: call K is answered 403, the stream ends, and later calls get 403")
def gone(run):
    master, framework = faulty(run, "gone:2", options=("--once",))
    expect("the status of a call", "403", framework.ask("REVIVE"))
    events, how = end_of(framework.stream)
    expect("how the stream ended", "last chunk", how)
    expect_line(master, f"stream {framework.stream.id} ended removed")
    expect_line(master, "fault gone:2")
    expect("the status of a SUBSCRIBE", "403", master.ask(request(SUBSCRIBE)))
    expect("the status of a SUBSCRIBE with the id", "403", master.ask(request(SUBSCRIBE | {"framework_id": {"value": "F1"}})))


@case("gone:1: a SUBSCRIBE is answered 403, and the next one opens a stream")
def gone_at_first(run):
    master = run.master("--fault", "gone:1")
    expect("the status of a SUBSCRIBE", "403", master.ask(request(SUBSCRIBE)))
    Framework(master.port).do("REVIVE")


@case("reset:K: the connection of call K is reset, and the call is not carried out")
def reset(run):
    master, framework = faulty(run, "reset:2", events=offers(offer("O1")))
    framework.read_offers("O1")
    connection = master.connect()
    connection.send(framework.bytes_of("ACCEPT", launch(["O1"], task("T1"))))
    expect("what comes", (b"", "reset"), connection.read_rest())
    expect_line(master, "fault reset:2")
    framework.do("ACCEPT", launch(["O1"], task("T1")))
    framework.step("T1", "TASK_STARTING")


@case("reset:K: a call that comes in one piece with the call before it gets no response, and is not carried out")
def reset_behind(run):
    master, framework = faulty(run, "reset:3", events=offers(offer("O1")))
    framework.read_offers("O1")
    connection = master.connect()
    connection.send(framework.bytes_of("REVIVE") + framework.bytes_of("ACCEPT", launch(["O1"], task("T1"))))
    expect("the first status", "202", connection.read_response().status)
    expect("what comes after it", b"", connection.read_rest()[0])
    framework.do("ACCEPT", launch(["O1"], task("T1")))


@case("chunk:M: the chunks of the stream have at most M bytes")
def chunk(run):
    _, framework = faulty(run, "chunk:3")
    expect_names(framework, "a", "b", "c")
    expect("the largest chunk", 3, max(framework.stream.sizes))


@case("of two faults of one event the first counts; faults of other events stay")
def first_counts(run):
    master, framework = faulty(run, "lose:2", "twice:2", "twice:4")
    expect_names(framework, "b", "c", "c")
    expect_line(master, "fault twice:4")
    expect("the lines of faults", ["fault lose:2", "fault twice:4"], fault_lines(master))


@case("a fault of standard input comes before a planned one, which is passed over")
def demanded_first(run):
    master, framework = faulty(run, "twice:2", events=records({"type": "LOSE"}, A, B))
    expect_names(framework, "b")
    expect("the lines of faults", [], fault_lines(master))


@case("--faults with a seed: the same faults in each run, and each has a line that --fault takes")
def at_random(run):
    def lines(*options):
        master = run.master(*options, events=records(*[failure(f"e{number}") for number in range(40)]))
        stream = None
        for _ in range(40):
            try:
                stream = Stream(master.port, request(SUBSCRIBE))
                if stream.head.status == "200":
                    end_of(stream) if any("cut" in line for line in fault_lines(master)[-1:]) else stream.read_within(1.5)
            except (Broken, OSError):
                pass
            if len(fault_lines(master)) > 10:
                break
        return fault_lines(master)[:8]

    first, again = (lines("--faults", "300", "--seed", "7") for _ in range(2))
    expect("faults happen", True, len(first) >= 4)
    expect("the lines of the second run", first, again)


@case("--faults 1000: each call has a fault, as the seed decides")
def each_call(run):
    master = run.master("--faults", "1000", "--seed", "1")
    for _ in range(8):
        connection = Connection(master.port)
        connection.send(request(SUBSCRIBE))
        connection.read_rest() if connection.is_quiet(0.2) is False else None
        connection.close()
    expect("each call has a line", True, len([line for line in fault_lines(master) if line.split()[1].split(":")[0] in ("busy", "unanswered", "slow", "reset")]) == 8)


@case("a fault that is none ends the command with status 2 before it listens")
def refused(run):
    for fault in ("", "lose", "lose:", "lose:0", "lose:x", "lose:1:2", "cut:1", "cut:1:", "late:1:0", "slow:0:1", "chunk:0", "chunk:16777217", "mute:1000000001", "LOSE:1", "lost:1", " lose:1"):
        ran = subprocess.run([run.program, "master", "--port", "0", f"--fault={fault}"], stdin=subprocess.DEVNULL, capture_output=True, timeout=LIMIT)
        expect(f"the status of --fault={fault}", (2, b""), (ran.returncode, ran.stdout))
