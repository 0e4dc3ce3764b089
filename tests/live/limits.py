"""Cases of limits: 64 places, a stream that nobody reads, processor time."""
import threading
import time

from messages import call, event, message, named, offer, offers, records
from runs import Framework, case, expect, expect_within
from wire import LIMIT, Connection, request

PLACES = 64
MIB = 1 << 20
REVIVE = request(call("REVIVE"), "s1")
# A record of 1,000,042 bytes or so.
LARGE = records(event("ERROR", message=1_000_000 * "a"))


def fill(master, count=PLACES):
    """Opens connections, makes a call on each, and returns them."""
    connections = [master.connect() for _ in range(count)]
    for connection in connections:
        expect("the status of a call", "403", connection.ask(REVIVE))
    return connections


@case("64 connections are served, and the 65th once one of them goes")
def the_65th(run):
    master = run.master()
    held = fill(master)
    waiting = master.connect()
    waiting.send(REVIVE)
    expect("the 65th waits", True, waiting.is_quiet(1))
    expect("the others are served", ["403", "403"], [held[0].ask(REVIVE), held[63].ask(REVIVE)])
    held[17].close()
    expect("the 65th is served", "403", waiting.read_response().status)


@case("64 places are taken and 30 clients wait: each of them is served, as the others go")
def thirty_wait(run):
    master = run.master()
    held, waiting = fill(master), [master.connect() for _ in range(30)]
    for connection in waiting:
        connection.send(REVIVE)
    for connection in held[:5]:
        connection.reset()
    expect("five are served", 5 * ["403"], [it.read_response().status for it in waiting[:5]])
    expect("25 wait", 25 * [True], [it.is_quiet(0.02) for it in waiting[5:]])
    for connection in held[5:]:
        connection.close()
    expect("all are served", 25 * ["403"], [it.read_response().status for it in waiting[5:]])


@case("200 clients at once that close after their call are all served")
def two_hundred(run):
    master = run.master()
    connections = [master.connect() for _ in range(200)]
    data = request(call("REVIVE"), "s1", "Connection: close")
    for connection in connections:
        connection.send(data)
    for number, connection in enumerate(connections):
        expect(f"the status of client {number}", "403", connection.read_response().status)
        expect(f"what follows for client {number}", (b"", "end"), connection.read_rest())
        connection.close()


@case("clients with half a request or an unread response free their places when they close")
def places_come_free(run):
    master = run.master()
    for _ in range(3):
        connections = [master.connect() for _ in range(PLACES)]
        for number, connection in enumerate(connections):
            connection.send([REVIVE[:-5], 5 * REVIVE, b"", b"X\x00\r\n\r\n"][number % 4])
        time.sleep(0.2)
        for number, connection in enumerate(connections):
            connection.reset() if number % 3 else connection.close()
    expect("a call after them", "403", master.ask(REVIVE))
    for connection in fill(master):
        connection.close()


@case("while nobody reads a stream 20,000 calls get responses, and all their events are on it in order")
def unread_stream(run):
    master, framework = run.framework("--heartbeat", "1")
    connection, batch, count = master.connect(), 200, 20_000
    for start in range(0, count, batch):
        connection.send(b"".join(framework.bytes_of("MESSAGE", message(number)) for number in range(start, start + batch)))
        got = [connection.read_response().status for _ in range(batch)]
        expect(f"the statuses from {start}", batch * ["202"], got)
    for number in range(count):
        expect(f"echo {number}", message(number), framework.next()["message"])


@case("a stream that nobody reads is not broken while 50 MB wait, and all of them arrive")
def much_waits(run):
    master, framework = run.framework(stdin="pipe", events="")
    for _ in range(50):
        master.feed(LARGE)
    time.sleep(1)
    framework.do("REVIVE")
    for number in range(50):
        expect(f"the type of event {number}", "ERROR", framework.next()["type"])
    framework.do("REVIVE")


@case("a stream that nobody reads is broken once 64 MiB wait: it is not current, and its offers are on the next one by new ids")
def too_much_waits(run):
    master, framework = run.framework(stdin="pipe", events=offers(offer("O1")))
    framework.read_offers("O1")
    for _ in range(100):
        master.feed(LARGE)
    expect("the status of a call by its id", "403", master.wait_for_status(framework.bytes_of("REVIVE"), "403"))
    line = f"stream {framework.stream.id} ended unread"
    expect(f"the line {line!r} comes", True, master.wait_for_line(lambda it: it == line, 10))
    second = Framework(master.port)
    while (got := second.next())["type"] == "ERROR":
        pass
    expect("the offers", ["O1-2"], [it["id"]["value"] for it in got["offers"]["offers"]])
    came, how = framework.stream.read_rest()
    expect("the old stream has its last chunk", False, how == "end" and came.endswith(b"0\r\n\r\n"))
    expect_within("the bytes of it that came, in MiB", 0, 80, len(came) / MIB)


@case("100 MB that came before the SUBSCRIBE arrive whole if the stream is read, whatever the limit for unread bytes is")
def much_before_subscribe(run):
    master, framework = run.framework(events=100 * LARGE + offers(offer("O1")))
    framework.read_offers("O1")
    for number in range(100):
        expect(f"the type of event {number}", "ERROR", framework.next()["type"])
        expect_within("the memory that is used, in MiB", 0, 180, master.memory() / 1024)
    framework.do("REVIVE")


@case("events of the input that come while earlier ones wait are sent after them, and none is lost")
def later_than_waiting(run):
    master = run.master(stdin="pipe", events=100 * LARGE)
    framework = Framework(master.port)
    master.feed(records(event("ERROR", message="last")))
    expect("the event after SUBSCRIBED", {"type": "HEARTBEAT"}, framework.stream.read_event())
    for number in range(100):
        expect(f"the type of event {number}", "ERROR", framework.next()["type"])
    expect("the last event", "last", framework.next()["error"]["message"])


@case("a fault of the input ends the run after the events that wait were sent")
def waiting_at_a_fault(run):
    # What waits is written for up to 1 second.
    master = run.master(stdin="pipe", events=6 * LARGE)
    framework = Framework(master.port)
    master.feed("x")
    expect("the event after SUBSCRIBED", {"type": "HEARTBEAT"}, framework.stream.read_event())
    for number in range(6):
        expect(f"the type of event {number}", "ERROR", framework.next()["type"])
    expect("the exit status", 1, master.wait())


@case("a stream that was replaced while nobody read it frees its place after 10 seconds")
def unread_replaced_stream(run):
    master = run.master(events=20 * LARGE)
    first = Framework(master.port, most=4096)
    second = Framework(master.port)
    held = master.open_files()
    time.sleep(8)
    expect("the open files after 8 s", held, master.open_files())
    time.sleep(4)
    expect("the open files after 12 s", held - 1, master.open_files())
    second.do("REVIVE")
    first.stream.close()


@case("a client that does not read the responses to its calls costs the others nothing")
def unread_responses(run):
    master, framework = run.framework()
    deaf = Connection(master.port, 4096)
    deaf.socket.settimeout(1)
    data = 2000 * framework.bytes_of("REVIVE")
    try:
        for _ in range(40):
            deaf.send(data)
    except (TimeoutError, BrokenPipeError, ConnectionResetError):
        pass
    for _ in range(100):
        framework.do("REVIVE")
    expect_within("the memory that is used, in MiB", 0, 120, master.memory() / 1024)


@case("HEARTBEATs come while calls are made without a pause, and other connections are served")
def busy(run):
    master, framework = run.framework("--heartbeat", "1")
    other, batch, until = master.connect(), 50 * framework.bytes_of("REVIVE"), time.monotonic() + 4.5
    flood = master.connect()
    slowest = 0
    while time.monotonic() < until:
        flood.send(batch)
        begun = time.monotonic()
        expect("a call on another connection", "202", other.ask(framework.bytes_of("REVIVE")))
        slowest = max(slowest, time.monotonic() - begun)
        expect("the statuses", 50 * ["202"], [flood.read_response().status for _ in range(50)])
    expect("the events", 3 * [{"type": "HEARTBEAT"}], [framework.stream.read_event(1) for _ in range(3)])
    expect_within("the seconds of the slowest call", 0, 5, slowest)


@case("a client that sends 30,000 calls and half-closes, and reads late and slowly, gets all its responses")
def late_reader(run):
    master, framework = run.framework()
    count, connection = 30_000, master.connect(4096)
    data = 1000 * framework.bytes_of("REVIVE")

    def send():
        for _ in range(count // 1000):
            connection.send(data)
        connection.half_close()

    sending = threading.Thread(target=send, daemon=True)
    sending.start()
    time.sleep(1)
    for number in range(count):
        expect(f"status {number}", "202", connection.read_response().status)
    expect("what follows", (b"", "end"), connection.read_rest())
    sending.join(LIMIT)


def expect_idle(master):
    """Expects that no processor time is used in 5 seconds."""
    time.sleep(0.5)
    before = master.processor_time()
    time.sleep(5)
    expect("the ticks of processor time of 5 s", 0, master.processor_time() - before)


@case("with 64 idle connections, one of them a stream, no processor time is used")
def idle(run):
    master, framework = run.framework()
    framework.do("REVIVE")
    fill_others = [master.connect() for _ in range(PLACES - 2)]
    for connection in fill_others:
        expect("the status of a call", "202", connection.ask(framework.bytes_of("REVIVE")))
    expect_idle(master)
    expect("a call after it", "202", fill_others[-1].ask(framework.bytes_of("REVIVE")))


@case("with 64 places taken and clients that wait no processor time is used")
def idle_with_waiting(run):
    master = run.master()
    held, waiting = fill(master), [master.connect() for _ in range(10)]
    for connection in waiting:
        connection.send(REVIVE)
    expect_idle(master)
    held[0].close()
    expect("the first that waits", "403", waiting[0].read_response().status)


@case("with half requests, half-closed streams and an unread stream no processor time is used")
def idle_with_odd_connections(run):
    master, framework = run.framework(events=LARGE + LARGE + LARGE + LARGE + LARGE + LARGE + LARGE + LARGE, stdin="file")
    parts = [master.connect() for _ in range(10)]
    for connection in parts:
        connection.send(REVIVE[:-3])
    framework.stream.half_close()
    expect_idle(master)


@case("with an input that has ended, one that stays open, or none, no processor time is used")
def idle_by_input(run):
    masters = [run.master(stdin=kind) for kind in ("file", "pipe", "null", "closed")]
    ended = run.master(stdin="pipe")
    ended.running.stdin.close()
    masters.append(ended)
    time.sleep(0.5)
    before = [master.processor_time() for master in masters]
    time.sleep(5)
    got = [master.processor_time() - ticks for master, ticks in zip(masters, before)]
    expect("the ticks of processor time of 5 s: file, pipe, null, closed, a pipe that ended", [0] * 5, got)


@case("with offers that wait and updates that are sent again seldom no processor time is used")
def idle_with_timers(run):
    _, framework = run.framework("--resend", "3600", "--heartbeat", "3600", events=offers(offer("O1")))
    framework.read_offers("O1")
    framework.do("DECLINE", {"offer_ids": [named("O1")], "filters": {"refuse_seconds": 100_000}})
    expect_idle(run.masters[0])
