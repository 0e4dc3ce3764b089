"""Cases of connections: requests in any pieces, kept and closed connections, bad requests, half-closed and reset sockets."""
import socket

from messages import SUBSCRIBE, call, launch, message, offer, offers, states, task
from runs import Framework, case, expect
from wire import PATH, Stream, request

MOST_HEAD, MOST_BODY = 16_384, 1_048_576
REVIVE = request(call("REVIVE"), "s1")


def echoes(framework, count):
    """Returns the bodies of the next MESSAGEs."""
    return [framework.next()["message"] for _ in range(count)]


@case("requests that arrive byte by byte on 20 connections at once get their responses")
def byte_by_byte(run):
    master, framework = run.framework()
    rows = [(master.connect(), framework.bytes_of("MESSAGE", message(number))) for number in range(10, 30)]
    for at in range(max(len(data) for _, data in rows)):
        for connection, data in rows:
            connection.send(data[at : at + 1])
    expect("the statuses", 20 * ["202"], [connection.read_response().status for connection, _ in rows])
    key = lambda body: body["data"]
    expect("the echoes", sorted((message(number) for number in range(10, 30)), key=key), sorted(echoes(framework, 20), key=key))
    expect("a second request on each", 20 * ["202"], [connection.ask(data) for connection, data in rows])


@case("a SUBSCRIBE that arrives byte by byte gets its stream")
def subscribe_byte_by_byte(run):
    connection = run.master().connect()
    for byte in request(SUBSCRIBE):
        connection.send(bytes([byte]))
    expect("the status", "200", connection.read_head().status)


@case("five calls in one write get five responses, and are carried out in order")
def pipelined(run):
    master, framework = run.framework()
    connection = master.connect()
    connection.send(b"".join(framework.bytes_of("MESSAGE", message(number)) for number in range(5)))
    expect("the responses", 5 * ["202"], [connection.read_response().status for _ in range(5)])
    expect("the echoes", [message(number) for number in range(5)], echoes(framework, 5))
    expect("no more comes", True, connection.is_quiet(0.3))


@case("calls of different statuses in one write get them in order")
def statuses_in_order(run):
    master, framework = run.framework()
    revive, foreign = framework.bytes_of("REVIVE"), request(call("REVIVE", "F9"), framework.stream.id)
    connection = master.connect()
    connection.send(revive + foreign + foreign + revive + foreign + revive)
    wanted = ["202", "403", "403", "202", "403", "202"]
    expect("the statuses", wanted, [connection.read_response().status for _ in wanted])


@case("two ACCEPTs of an offer in one write: the first one launches its task, that of the second is lost")
def pipelined_accepts(run):
    master, framework = run.framework(events=offers(offer("O1")))
    framework.read_offers("O1")
    connection = master.connect()
    connection.send(b"".join(framework.bytes_of("ACCEPT", launch(["O1"], task(name))) for name in ("T1", "T2")))
    expect("the statuses", ["202", "202"], [connection.read_response().status for _ in range(2)])
    updates = [framework.next(), framework.next()]
    expect("the updates", [("T1", "TASK_STARTING"), ("T2", "TASK_LOST")], sorted(states(updates)))


@case("pipelined requests after a 400 get no response and are not carried out, and the connection is closed")
def pipelined_after_a_fault(run):
    master, framework = run.framework()
    connection = master.connect()
    first, last = (framework.bytes_of("MESSAGE", message(number)) for number in (1, 2))
    connection.send(first + first + b"X\x00\r\n\r\n" + last)
    expect("the responses", ["202", "202", "400"], [connection.read_response().status for _ in range(3)])
    expect("what follows", (b"", "end"), connection.read_rest())
    expect("the echoes", [message(1), message(1)], echoes(framework, 2))
    framework.expect_nothing(0.5)


@case("a request cut into two pieces at any byte gets its response")
def cut_anywhere(run):
    master, framework = run.framework()
    data = framework.bytes_of("REVIVE")
    connection = master.connect()
    for cut in range(1, len(data)):
        connection.send(data[:cut])
        connection.send(data[cut:])
        expect(f"cut at {cut}", "202", connection.read_response().status)


@case("a connection of HTTP/1.1 is kept: 300 calls on it, each with a response that has no body")
def kept(run):
    master, framework = run.framework()
    connection = master.connect()
    for number in range(300):
        connection.send(framework.bytes_of("REVIVE"))
        got = connection.read_response()
        expect(f"response {number}", ("202", "0", b""), (got.status, got.fields["content-length"], got.body))
        expect("it says that it closes", False, "close" in got.fields.get("connection", "").lower())


@case("after a call with Connection: close the connection is closed, after one without it is kept")
def connection_fields(run):
    master, framework = run.framework()
    rows = [
        (["Connection: close"], True),
        (["CONNECTION:\tClose "], True),
        (["Connection: foo, close"], True),
        (["Connection: close,foo"], True),
        (["Connection: foo", "Connection: close"], True),
        (["Connection: keep-alive"], False),
        (["Connection: Keep-Alive, foo"], False),
        (["Connection: closed"], False),
        (["Connection: foo"], False),
        (["Keep-Alive: timeout=5"], False),
    ]
    for fields, is_closed in rows:
        connection = master.connect()
        connection.send(framework.bytes_of("REVIVE", None, *fields))
        got = connection.read_response()
        expect(f"{fields}: the status", "202", got.status)
        expect(f"{fields}: it says that it closes", is_closed, got.fields.get("connection", "").lower() == "close")
        if is_closed:
            expect(f"{fields}: what follows", (b"", "end"), connection.read_rest())
        else:
            expect(f"{fields}: a second call", "202", connection.ask(framework.bytes_of("REVIVE")))


@case("a call after one with Connection: close gets no response and is not carried out")
def after_a_close(run):
    master, framework = run.framework()
    connection = master.connect()
    connection.send(framework.bytes_of("MESSAGE", message(1), "Connection: close") + framework.bytes_of("MESSAGE", message(2)))
    expect("the status", "202", connection.read_response().status)
    expect("what follows", (b"", "end"), connection.read_rest())
    expect("the echoes", [message(1)], echoes(framework, 1))
    framework.expect_nothing(0.5)


@case("after a call of HTTP/1.0 the connection is closed")
def old_version(run):
    master, framework = run.framework()
    connection = master.connect()
    connection.send(framework.bytes_of("REVIVE").replace(b"HTTP/1.1", b"HTTP/1.0"))
    expect("the status", "202", connection.read_response().status)
    expect("what follows", (b"", "end"), connection.read_rest())


@case("after a call of HTTP/1.0 with Connection: keep-alive the connection is kept only if the response says so")
def old_version_kept(run):
    master, framework = run.framework()
    connection = master.connect()
    data = framework.bytes_of("REVIVE", None, "Connection: keep-alive").replace(b"HTTP/1.1", b"HTTP/1.0")
    connection.send(data)
    got = connection.read_response()
    expect("the status", "202", got.status)
    if got.fields.get("connection", "").lower() == "keep-alive":
        expect("a second call", "202", connection.ask(data))
    else:
        expect("what follows", (b"", "end"), connection.read_rest())


def bad_requests():
    """Requests with their statuses: the faults H2 to H11 of docs/FORMAT.md, and bodies that are no call."""
    revive = b'{"type":"REVIVE","framework_id":{"value":"F1"}}'
    good = request(revive)
    return [
        ("another path", request(revive, path="/x"), "404"),
        ("a path with a query", request(revive, path=PATH + "?a=b"), "404"),
        ("a GET of another path", b"GET /x HTTP/1.1\r\nHost: h\r\n\r\n", "404"),
        ("a GET", request(revive, method="GET"), "405"),
        ("a method in small letters", request(revive, method="post"), "405"),
        ("no Content-Type", good.replace(b"Content-Type: application/json\r\n", b""), "400"),
        ("another Content-Type", good.replace(b"json", b"x-protobuf", 1), "400"),
        ("no Content-Length", good.replace(b"Content-Length: 47\r\n", b""), "400"),
        ("a chunked request", good.replace(b"Content-Length: 47", b"Transfer-Encoding: chunked"), "400"),
        ("a Content-Length and chunks", good.replace(b"Host", b"Transfer-Encoding: chunked\r\nHost"), "400"),
        ("two lengths", good.replace(b"Content-Length: 47\r\n", 2 * b"Content-Length: 47\r\n"), "400"),
        ("a signed length", good.replace(b": 47", b": +47"), "400"),
        ("two streams", good.replace(b"Host", b"Mesos-Stream-Id: a\r\nMesos-Stream-Id: a\r\nHost"), "400"),
        ("an empty stream", good.replace(b"Host", b"Mesos-Stream-Id: \r\nHost"), "400"),
        ("a body that is no JSON", request(b"{"), "400"),
        ("a body that is no call", request(b"{}"), "400"),
        ("no body", request(b""), "400"),
        ("a call of another type", request(b'{"type":"REQUEST","framework_id":{"value":"F1"}}'), "400"),
        ("control characters", b"\x00\x01\x02\r\n\r\n", "400"),
        ("HTTP/2", good.replace(b"HTTP/1.1", b"HTTP/2.0"), "400"),
        ("the preface of HTTP/2", b"PRI * HTTP/2.0\r\n\r\nSM\r\n\r\n", "400"),
        ("a TLS hello", b"\x16\x03\x01\x02\x00\x01\x00\x01\xfc\x03\x03" + bytes(range(256)), "400"),
        ("a head of 16 KiB that has no end", b"POST / HTTP/1.1\r\nA: " + MOST_HEAD * b"a", "400"),
        ("a head of 20 KB", b"POST / HTTP/1.1\r\nA: " + 20_000 * b"a" + b"\r\n\r\n", "400"),
        ("65 fields", b"POST / HTTP/1.1\r\n" + 65 * b"A: b\r\n" + b"\r\n", "400"),
        ("a space before a colon", good.replace(b"Host:", b"Host :"), "400"),
        ("a folded line", good.replace(b"Host: 127.0.0.1", b"Host: a\r\n b"), "400"),
        ("100 KB of garbage", 100_000 * b"\xff", "400"),
        ("100 KB of lines", 10_000 * b"garbage\r\n\r\n", "400"),
    ]


@case("a request that is refused gets its status, as in serve; after a 400 the connection is closed, and never reset")
def refused(run):
    master, framework = run.framework()
    for name, data, status in bad_requests():
        connection = master.connect()
        connection.send(data)
        got = connection.read_response()
        expect(f"{name}: the status", status, got.status)
        if status == "400" or got.fields.get("connection", "").lower() == "close":
            expect(f"{name}: what follows", (b"", "end"), connection.read_rest())
        else:
            expect(f"{name}: a call after it", "202", connection.ask(framework.bytes_of("REVIVE")))
    expect("a good call at the end", "202", framework.ask("REVIVE"))


@case("a 400 of the master itself closes the connection too")
def refused_by_the_master(run):
    master, framework = run.framework()
    connection = master.connect()
    connection.send(request(call("REVIVE", framework.id), "s1"))
    got = connection.read_response()
    expect("the status", "400", got.status)
    expect("it says that it closes", "close", got.fields.get("connection", "").lower())
    expect("what follows", (b"", "end"), connection.read_rest())


@case("after a 403 the connection is kept, if the response does not say that it closes")
def forbidden(run):
    connection = run.master().connect()
    for _ in range(3):
        connection.send(REVIVE)
        got = connection.read_response()
        expect("the status", "403", got.status)
        if got.fields.get("connection", "").lower() == "close":
            expect("what follows", (b"", "end"), connection.read_rest())
            return


@case("a body of 1 MiB is read, and the next request on its connection too; one byte more is refused by its head")
def bodies(run):
    master, framework = run.framework()
    body = b'{"type":"REVIVE","framework_id":{"value":"%s"}}' % framework.id.encode()
    connection = master.connect()
    for size in (MOST_BODY, len(body), MOST_BODY - 1):
        expect(f"a body of {size} bytes", "202", connection.ask(request(body.ljust(size), framework.stream.id)))
    for sent in (0, len(body), MOST_BODY + 1):
        connection = master.connect()
        connection.send(request(body.ljust(sent)[:sent], framework.stream.id, length=MOST_BODY + 1))
        expect(f"a larger one, with {sent} bytes sent", "400", connection.read_response().status)
        expect("what follows", (b"", "end"), connection.read_rest())


@case("a call with Expect: 100-continue gets its response, at the latest once its body has come; one that is too large gets the 400 at once")
def expects(run):
    master, framework = run.framework()
    data = framework.bytes_of("REVIVE", None, "Expect: 100-continue")
    head = data.index(b"\r\n\r\n") + 4
    connection = master.connect()
    connection.send(data[:head])
    if connection.is_quiet(1):
        connection.send(data[head:])
    else:
        expect("what comes before the body", "100", connection.read_head().status)
        connection.send(data[head:])
    expect("the status", "202", connection.read_response().status)
    connection = master.connect()
    connection.send(request(b"", framework.stream.id, "Expect: 100-continue", length=MOST_BODY + 1))
    expect("the status of a large one", "400", connection.read_response().status)


@case("a client that sends a body of 16 MiB and then reads gets the 400")
def large_body(run):
    master, framework = run.framework()
    connection = master.connect()
    try:
        connection.send(request(b" ".ljust(16 * MOST_BODY), framework.stream.id))
    except (BrokenPipeError, ConnectionResetError):
        pass
    expect("the status", "400", connection.read_response().status)
    framework.do("REVIVE")


@case("requests of 800 KB in one go get their responses, though nothing is read before all is sent")
def many_in_one_go(run):
    master, framework = run.framework()
    data = framework.bytes_of("REVIVE")
    count = 800_000 // len(data)
    connection = master.connect()
    connection.send(count * data)
    expect("the statuses", count * ["202"], [connection.read_response().status for _ in range(count)])
    framework.do("REVIVE")


@case("a connection that is closed or reset inside a request, at any byte, costs the others nothing")
def cut_requests(run):
    master, framework = run.framework()
    data = framework.bytes_of("MESSAGE", message(1))
    for cut in range(len(data)):
        connection = master.connect()
        connection.send(data[:cut])
        connection.reset() if cut % 2 else connection.close()
    framework.do("MESSAGE", message(2))
    expect("the echo", message(2), framework.next()["message"])


@case("the requests on a half-closed connection get their responses, and then the connection is closed")
def half_closed(run):
    master, framework = run.framework()
    for count in (1, 2, 1000):
        connection = master.connect()
        connection.send(count * framework.bytes_of("REVIVE"))
        connection.half_close()
        expect("the statuses", count * ["202"], [connection.read_response().status for _ in range(count)])
        expect("what follows", (b"", "end"), connection.read_rest())


@case("a connection that is half-closed before a request or inside one is closed by the master")
def half_closed_early(run):
    master, framework = run.framework()
    data = framework.bytes_of("REVIVE")
    for cut in (0, 10, data.index(b"\r\n\r\n"), len(data) - 1):
        connection = master.connect()
        connection.send(data[:cut])
        connection.half_close()
        came, how = connection.read_rest()
        expect(f"cut at {cut}: how it ends", "end", how)
        expect(f"cut at {cut}: the status of a response, if there is one", b"", came and came[:12].replace(b"HTTP/1.1 400", b""))
    framework.do("REVIVE")


@case("a SUBSCRIBE on a connection that the client half-closes then gets its stream")
def half_closed_stream(run):
    _, framework = run.framework(events=offers(offer("O1")))
    framework.read_offers("O1")
    framework.stream.half_close()
    framework.run_tasks(["O1"], task("T1"))


@case("500 clients that reset their connections cost the others nothing")
def resets(run):
    master, framework = run.framework(events=offers(offer("O1")))
    framework.read_offers("O1")
    pieces = [b"", b"\xff" * 100, framework.bytes_of("REVIVE"), framework.bytes_of("REVIVE")[:-1], 3 * framework.bytes_of("REVIVE")]
    for number in range(500):
        connection = master.connect()
        connection.send(pieces[number % 5])
        connection.reset()
    framework.run_tasks(["O1"], task("T1"))


@case("requests after a SUBSCRIBE on its connection get no response: only events come")
def after_a_subscribe(run):
    master = run.master()
    stream = Stream(master.port, request(SUBSCRIBE) + REVIVE + request(SUBSCRIBE))
    expect("the status", "200", stream.head.status)
    stream.send(REVIVE)
    first = stream.read_event()
    expect("the first events", ["SUBSCRIBED", "HEARTBEAT"], [first["type"], stream.read_event()["type"]])
    expect("no more comes", True, stream.is_quiet(1) and not stream.data)
    data = request(call("MESSAGE", first["subscribed"]["framework_id"]["value"], message(1)), stream.id)
    expect("a call on the stream", "202", master.ask(data))
    expect("its echo", message(1), stream.next()["message"])


@case("a SUBSCRIBE after calls on a kept connection opens a stream there")
def subscribe_on_a_kept_connection(run):
    master = run.master()
    connection = master.connect()
    connection.send(REVIVE)
    if connection.read_response().fields.get("connection", "").lower() == "close":
        return
    connection.send(request(SUBSCRIBE))
    expect("the status", "200", connection.read_head().status)


@case("a SUBSCRIBE with Connection: close gets its stream, and the connection is closed after its last chunk")
def subscribe_and_close(run):
    master = run.master()
    stream = Stream(master.port, request(SUBSCRIBE, None, "Connection: close"))
    expect("the first event", "SUBSCRIBED", stream.next()["type"])
    Framework(master.port)
    expect("the last event", "ERROR", stream.next()["type"])
    expect("the end", None, stream.next())
    expect("what follows", (b"", "end"), stream.read_rest())


@case("only 127.0.0.1 is listened on")
def other_addresses(run):
    master = run.master()
    try:
        socket.create_connection(("127.0.0.2", master.port), timeout=5).close()
        got = "taken"
    except ConnectionRefusedError:
        got = "refused"
    expect("a connection to 127.0.0.2", "refused", got)
