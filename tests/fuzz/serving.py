"""Sends requests to a running `serve`, and checks its responses and its lines."""
import re
import socket
import struct
import time

import inputs
from runs import LIMIT, Difference, expect
from support import free_port, read_all


class Serving:
    """A running `serve`, and the request and response of each of its connections."""

    def __init__(self, program, pick, count):
        events = inputs.framed(pick, [(b"", inputs.event(pick)) for _ in range(6)], False)
        self.port, self.pick, self.connections = free_port(), pick, []
        self.running = program.start(["serve", "--port", str(self.port), "--count", str(count)], program.holding(events))

    def connect(self):
        until = time.monotonic() + LIMIT
        while self.running.poll() is None and time.monotonic() < until:
            try:
                return socket.create_connection(("127.0.0.1", self.port), timeout=LIMIT)
            except ConnectionRefusedError:
                time.sleep(0.002)
        raise Difference("serve has ended, or does not listen")

    def ask(self, data, kind, how):
        """Sends a request whole, in pieces, cut off, or cut off by a client that closes. Returns the response, or None
        if it is unknown."""
        sent = data[: self.pick.randrange(len(data) + 1)] if how in ("cut", "gone") else data
        size = self.pick.randrange(1, len(data) // 2 + 2) if how == "pieces" else len(data) + 1
        response, linger = None, self.pick.random() < 0.5
        with self.connect() as client:
            client.setsockopt(socket.IPPROTO_TCP, socket.TCP_NODELAY, 1)
            try:
                whole = self.send(client, [sent[at : at + size] for at in range(0, len(sent), size)])
                if how != "gone":
                    response = read_all(client)
                    response = response if response or whole else None
                elif linger:
                    client.setsockopt(socket.SOL_SOCKET, socket.SO_LINGER, struct.pack("ii", 1, 0))
            except TimeoutError as error:
                raise Difference(f"no response within {LIMIT} seconds to {sent[:200]!r}", data) from error
        self.connections.append((data, kind, how, response))
        return response

    def send(self, client, pieces):
        """Sends the pieces. Returns whether all were sent; otherwise serve has responded before."""
        try:
            for piece in pieces:
                client.sendall(piece)
            client.shutdown(socket.SHUT_WR)
        except TimeoutError:
            raise
        except OSError:
            return False
        return True


SERVED = re.compile(rb"(200|202|400|403|404|405|-) ([A-Z]+|-)\n(net write failed\n)?")
HEAD = re.compile(rb"HTTP/1\.1 200 OK\r\nContent-Type: application/json\r\nTransfer-Encoding: chunked\r\nMesos-Stream-Id: (\S+)\r\n\r\n")
STATUS = re.compile(
    rb"HTTP/1\.1 (202 Accepted|400 Bad Request|403 Forbidden|404 Not Found|405 Method Not Allowed)\r\nContent-Length: 0\r\nConnection: close\r\n\r\n"
)


def expect_line(connection, line, streams):
    """Checks that a line has its form, and reports the response of its connection. The stream has the number `streams`."""
    data, kind, how, response = connection
    status, name, unwritten = line.groups()
    known = name.decode() in [*inputs.CALLS, "TEARDOWN"]
    statuses = [b"200", b"403"] if name == b"SUBSCRIBE" else [b"202", b"400", b"403"] if known else [b"400", b"404", b"405", b"-"]
    expect(f"the line {line[0]!r} has a form", (True, True), (known or name == b"-", status in statuses), data)
    if kind and how in ("whole", "pieces"):
        expect("the type of a valid call", kind.encode(), name, data)
    if response == b"":
        expect(f"the line {line[0]!r} of a connection without a response", (b"-", None), (status, unwritten), data)
    elif response and status == b"200":
        head = HEAD.match(response)
        expect(f"the stream of {response[:200]!r}", b"00000000-0000-4000-8000-%012x" % streams, head and head[1], data)
    elif response:
        found = STATUS.fullmatch(response)
        expect(f"the line {line[0]!r} of {response[:200]!r}", (status, None), (found and found[1][:3], unwritten), data)


def expect_lines(connections, out):
    """Checks that each connection has its line, that pieces do not change it, and that the last one has a stream."""
    lines = list(SERVED.finditer(out))
    expect("the lines of serve", (out, len(connections)), (b"".join(it[0] for it in lines), len(lines)))
    streams, down, before = 0, False, None
    for one, line in zip(connections, lines):
        streams += line[1] == b"200"
        expect_line(one, line, streams)
        if one[2] == "pieces" and before[0] != b"202 TEARDOWN\n":
            expect("a request in pieces", before[0], line[0], one[0])
        down, before = down or line[0] == b"202 TEARDOWN\n", line
    expect("a valid request after the others", b"403 SUBSCRIBE\n" if down else b"200 SUBSCRIBE\n", lines[-1][0])


def serve_requests(program, pick, given):
    """Sends each request whole, and then in another way. A valid one comes first and last."""
    serving = Serving(program, pick, 2 * len(given.data) + 2)
    try:
        serving.ask(inputs.GOOD_REQUEST, "SUBSCRIBE", "whole")
        for data, kind in given.data:
            serving.ask(data, kind, "whole")
            serving.ask(data, kind, pick.choice(["pieces", "pieces", "cut", "gone"]))
        body = (serving.ask(inputs.GOOD_REQUEST, "SUBSCRIBE", "whole") or b"").partition(b"\r\n\r\n")[2]
    except Difference as difference:
        serving.running.kill()
        raise Difference(f"{difference}; serve: {program.end(serving.running)}", difference.data, difference.what, difference.values) from difference
    except BaseException:
        serving.running.kill()
        raise
    ran = program.end(serving.running)
    expect("the end of serve", (b"", 0), (ran.err, ran.status))
    expect_lines(serving.connections, ran.out)
    if body:
        expect("the last stream", b"%d\n" % len(body), program.run(["check", "--chunked"], body).out.rsplit(b" ", 1)[1])
