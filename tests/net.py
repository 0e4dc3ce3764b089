#!/usr/bin/env python3
"""Runs serve, subscribe and loopback of the built command against clients and servers of this script.

All connections are on 127.0.0.1, and each wait has a time limit. Without curl its case is skipped.
A case is a method of `Tests`; its name has blanks in place of `_`.
"""
import os
import re
import resource
import select
import shutil
import signal
import socket
import struct
import subprocess
import sys
import tempfile
import threading
import time

sys.dont_write_bytecode = True
from support import BEAT, Cases, chunked, free_port, parser, read_all, record

LIMIT = 30
STREAM = "00000000-0000-4000-8000-%012x"
FRAMEWORK = '"framework_id":{"value":"F1"}'
SUBSCRIBED = '100\n{"type":"SUBSCRIBED","subscribed":{%s,"heartbeat_interval_seconds":15.0}}' % FRAMEWORK
OFFER = '{"id":{"value":"O1"},%s,"agent_id":{"value":"A1"},"hostname":"h"}' % FRAMEWORK
# An array of offers that nests 128 deep, the greatest depth. Its canonical text is in an object, and nests deeper.
DEEP = (
    '{"type":"OFFERS","offers":[%s,"resources":[{"name":"d","type":"SCALAR","scalar":{"value":1},"disk":%s}]}]}'
    % (OFFER[:-1], '{"a":' * 122 + "{}" + "}" * 122)
)

# The type and the body of each call except SUBSCRIBE.
CALLS = [
    ("ACCEPT", '"accept":{"offer_ids":[{"value":"O1"}]}'),
    ("DECLINE", '"decline":{"offer_ids":[{"value":"O1"}]}'),
    ("REVIVE", None),
    ("SUPPRESS", None),
    ("KILL", '"kill":{"task_id":{"value":"T1"}}'),
    ("ACKNOWLEDGE", '"acknowledge":{"agent_id":{"value":"A1"},"task_id":{"value":"T1"},"uuid":"AAECAwQFBgcICQoLDA0ODw=="}'),
    ("RECONCILE", '"reconcile":{}'),
    ("SHUTDOWN", '"shutdown":{"executor_id":{"value":"E1"},"agent_id":{"value":"A1"}}'),
    ("MESSAGE", '"message":{"agent_id":{"value":"A1"},"executor_id":{"value":"E1"},"data":"AAE="}'),
    ("TEARDOWN", None),
]
SUBSCRIBE = '{"type":"SUBSCRIBE","subscribe":{"framework_info":{"user":"root","name":"n"}}}'


def call(name, body):
    return '{"type":"%s",%s%s}' % (name, FRAMEWORK, "," + body if body else "")


def request(body, stream=None, method="POST", path="/api/v1/scheduler", length=True):
    """Returns the bytes of a request."""
    head = f"{method} {path} HTTP/1.1\r\nHost: h\r\nContent-Type: application/json\r\n"
    if stream:
        head += f"Mesos-Stream-Id: {stream}\r\n"
    if length:
        head += f"Content-Length: {len(body)}\r\n"
    return (head + "\r\n" + body).encode()


def feed(running, data):
    """Writes the standard input of a program and closes it, within the time limit."""
    until, rest = time.monotonic() + LIMIT, memoryview(data)
    os.set_blocking(running.stdin.fileno(), False)
    while rest:
        if not select.select([], [running.stdin], [], max(0, until - time.monotonic()))[1]:
            running.kill()
            raise TimeoutError("the input is not read")
        rest = rest[os.write(running.stdin.fileno(), rest) :]
    running.stdin.close()


def limit_files(room):
    """Lets writes fail after `room` bytes of a file."""
    signal.signal(signal.SIGXFSZ, signal.SIG_IGN)
    resource.setrlimit(resource.RLIMIT_FSIZE, (room, room))


def close_all(streams):
    """Closes the standard streams of these numbers."""
    for stream in streams:
        os.close(stream)


class Serve:
    """A running `serve` for `count` connections, with `events` as its input.

    It prints to a pipe, or to the file `out` of at most `room` bytes. The standard streams in
    `closed` are closed.
    """

    def __init__(self, program, count, events="", more=(), out=None, room=None, closed=()):
        self.port = free_port()
        args = [program, "serve", "--port", str(self.port), "--count", str(count), *more]
        how = {"stdin": subprocess.PIPE, "stdout": out or subprocess.PIPE, "stderr": subprocess.PIPE}
        if room:
            how["preexec_fn"] = lambda: limit_files(room)
        if closed:
            how["preexec_fn"] = lambda: close_all(closed)
        self.running = subprocess.Popen(args, **how)
        feed(self.running, events.encode())

    def connect(self):
        until = time.monotonic() + LIMIT
        while True:
            try:
                return socket.create_connection(("127.0.0.1", self.port), timeout=LIMIT)
            except ConnectionRefusedError:
                if time.monotonic() > until:
                    raise
                time.sleep(0.01)

    def ask(self, data):
        """Sends the bytes, and returns the response, which may come before all are sent."""
        with self.connect() as client:
            try:
                client.sendall(data)
            except (BrokenPipeError, ConnectionResetError):
                pass
            return read_all(client)

    def status(self, data):
        """Sends the bytes, and returns the status of the response, or `-` without one."""
        head = self.ask(data).split(b"\r\n")[0].split(b" ")
        return head[1].decode() if len(head) > 1 else "-"

    def cut(self, data):
        """Sends the bytes, and closes the socket at once."""
        with self.connect() as client:
            client.sendall(data)

    def reset(self, data):
        """Sends the bytes, and resets the connection at once."""
        with self.connect() as client:
            client.sendall(data)
            client.setsockopt(socket.SOL_SOCKET, socket.SO_LINGER, struct.pack("ii", 1, 0))

    def end(self):
        """Waits for the end, and returns both outputs and the status."""
        try:
            status = self.running.wait(LIMIT)
        finally:
            self.running.kill()
        printed = self.running.stdout.read().decode() if self.running.stdout else ""
        return printed, self.running.stderr.read().decode(), status


class Server:
    """A server for one connection, which reads a request and sends `pieces`."""

    def __init__(self, pieces):
        self.listener = socket.create_server(("127.0.0.1", 0))
        self.listener.settimeout(LIMIT)
        self.port, self.pieces, self.request = self.listener.getsockname()[1], pieces, b""
        # The bytes that follow the request.
        self.rest = None
        self.thread = threading.Thread(target=self.serve, daemon=True)
        self.thread.start()

    def serve(self):
        client = self.listener.accept()[0]
        with client, self.listener:
            client.settimeout(LIMIT)
            client.setsockopt(socket.IPPROTO_TCP, socket.TCP_NODELAY, 1)
            while b"\r\n\r\n" not in self.request or not self.request.endswith(b"}}}"):
                more = client.recv(65536)
                if not more:
                    return
                self.request += more
            for piece in self.pieces:
                client.sendall(piece)
            try:
                client.shutdown(socket.SHUT_WR)
            except OSError:  # the program has ended, and reset the connection
                return
            self.rest = read_all(client)


class Tests(Cases):
    def __init__(self, program, word):
        super().__init__(word)
        self.program = os.path.abspath(program)

    def run(self, args, text=""):
        ran = subprocess.run([self.program, *args], input=text.encode(), capture_output=True, timeout=LIMIT, check=False)
        return ran.stdout.decode(), ran.stderr.decode(), ran.returncode

    def subscribe(self, pieces, more=()):
        """Returns both outputs and the status of `subscribe` for these pieces, and its request."""
        server = Server(pieces)
        got = self.run(["subscribe", "--to", f"127.0.0.1:{server.port}", "--user", "u", "--name", "n", *more])
        server.thread.join(LIMIT)
        return got, server.request.decode()

    # ---- serve

    def calls(self):
        """Sends each call with and without the id of a stream, before SUBSCRIBE and after it."""
        count = 1 + len(CALLS) + 1 + 3 * len(CALLS) + 1
        serve, lines = Serve(self.program, count, BEAT), []
        self.expect("SUBSCRIBE with a foreign framework", "403", serve.status(request(SUBSCRIBE[:-1] + ',"framework_id":{"value":"F2"}}')))
        lines.append("403 SUBSCRIBE")
        for name, body in CALLS:
            self.expect(f"{name} before a SUBSCRIBE", "403", serve.status(request(call(name, body))))
            lines.append(f"403 {name}")
        response = serve.ask(request(SUBSCRIBE)).decode()
        head = f"HTTP/1.1 200 OK\r\nContent-Type: application/json\r\nTransfer-Encoding: chunked\r\nMesos-Stream-Id: {STREAM % 1}\r\n\r\n"
        self.expect("the response to SUBSCRIBE", head + chunked(SUBSCRIBED + BEAT, 4096), response)
        lines.append("200 SUBSCRIBE")
        for name, body in CALLS:
            for stream, status in [(None, "400"), ("s1", "400"), (STREAM % 1, "202")]:
                self.expect(f"{name} on {stream}", status, serve.status(request(call(name, body), stream)))
                lines.append(f"{status} {name}")
        self.expect("REVIVE after TEARDOWN", "403", serve.status(request(call("REVIVE", None), STREAM % 1)))
        lines.append("403 REVIVE")
        self.expect("the lines of serve", ("".join(line + "\n" for line in lines), "", 0), serve.end())

    def requests(self):
        """Sends requests that are rejected, and compares the line of each."""
        revive = call("REVIVE", None)
        rows = [
            (request(revive, path="/x"), "404", "404 -"),
            (request(revive, method="GET"), "405", "405 -"),
            (b"GET / HTTP/1.1\r\nHost: h\r\n\r\n", "404", "404 -"),
            (request(chunked(revive, 10), length=False).replace(b"Host", b"Transfer-Encoding: chunked\r\nHost"), "400", "400 -"),
            (request(revive, length=False), "400", "400 -"),
            (request("{}"), "400", "400 -"),
            (request(""), "400", "400 -"),
            (b"\x00\x01\x02\r\n\r\n", "400", "400 -"),
            (b"POST / HTTP/1.1\r\nA: " + b"a" * 20000 + b"\r\n\r\n", "400", "400 -"),
            (request(revive).replace(b"application/json", b"Application/JSON ; charset=utf-8"), "403", "403 REVIVE"),
        ]
        serve = Serve(self.program, len(rows))
        for data, status, _ in rows:
            self.expect(f"status of the request {data[:60]!r}", status, serve.status(data), data)
        self.expect("the lines of requests", ("".join(row[2] + "\n" for row in rows), "", 0), serve.end())

    def cuts(self):
        """Closes the connection after each byte of a request."""
        body = call("REVIVE", None)
        data = request(body)
        serve = Serve(self.program, len(data) + 1)
        for cut in range(len(data)):
            serve.cut(data[:cut])
        self.expect("a whole request after those that were cut", "403", serve.status(data))
        lines = (len(data) - len(body)) * "400 -\n" + len(body) * "- -\n" + "403 REVIVE\n"
        self.expect("the lines of a request that is cut", (lines, "", 0), serve.end())

    def bad_clients(self):
        """Serves 200 bad clients, and then a good one."""
        serve = Serve(self.program, 201, BEAT)
        for number in range(200):
            serve.cut([b"", b"\xff" * 100, b"POST", request(SUBSCRIBE)[:-1], b"GET / HTTP/1.1\r\n\r\n"][number % 5])
        self.expect("a good client after 200 bad ones", "200", serve.status(request(SUBSCRIBE)))
        out, err, status = serve.end()
        lines = 40 * ["400 -", "400 -", "400 -", "- -", "404 -"] + ["200 SUBSCRIBE"]
        self.expect("the lines of the bad ones and the good one", (lines, "", 0), (out.splitlines(), err, status))

    def resets(self):
        """Serves a client after another one has reset its connection inside a stream of 20 MB."""
        serve = Serve(self.program, 2, 20 * record('{"type":"ERROR","error":{"message":"%s"}}' % (1_000_000 * "a")))
        with serve.connect() as client:
            client.sendall(request(SUBSCRIBE))
            client.recv(1000)
            client.setsockopt(socket.SOL_SOCKET, socket.SO_LINGER, struct.pack("ii", 1, 0))
        self.expect("a call after a reset", "202", serve.status(request(call("REVIVE", None), STREAM % 1)))
        self.expect("the lines after a reset", ("200 SUBSCRIBE\nnet write failed\n202 REVIVE\n", "", 0), serve.end())

    def resets_in_the_queue(self):
        """Serves a client after others have reset their connections before their turn.

        One of them has sent nothing, the other a whole request.
        """
        revive = request(call("REVIVE", None))
        serve = Serve(self.program, 4)
        with serve.connect():
            serve.reset(b"")
            serve.reset(revive)
        self.expect("a call after resets in the queue", "403", serve.status(revive))
        out, err, status = serve.end()
        # The system decides whether the bytes before a reset are read, and whether the response is written.
        form = r"400 -\n- -\n(- -\n|403 REVIVE\n(net write failed\n)?)403 REVIVE\n"
        self.expect(f"the lines of resets in the queue: {out!r}", (True, "", 0), (bool(re.fullmatch(form, out)), err, status))

    def large_bodies(self):
        """Sends a body of 1 MiB, which is read, and larger ones, which are rejected by their heads."""
        revive, most = call("REVIVE", None), 1 << 20
        rows = [(most, "403", "403 REVIVE"), (most + 1, "400", "400 -"), (16 * most, "400", "400 -"), (len(revive), "403", "403 REVIVE")]
        serve = Serve(self.program, len(rows))
        for size, status, _ in rows:
            self.expect(f"a body of {size} bytes", status, serve.status(request(revive.ljust(size))))
        self.expect("the lines of large bodies", ("".join(row[2] + "\n" for row in rows), "", 0), serve.end())

    def turns(self):
        """Checks that a silent client has its turn until it closes, and that only 127.0.0.1 is listened on."""
        serve = Serve(self.program, 2)
        silent, waiting = serve.connect(), serve.connect()
        with waiting:
            try:
                with socket.create_connection(("127.0.0.2", serve.port), timeout=LIMIT):
                    self.expect("a connection to 127.0.0.2", "refused", "accepted")
            except ConnectionRefusedError:
                self.expect("a connection to 127.0.0.2", "refused", "refused")
            waiting.sendall(request(call("REVIVE", None)))
            waiting.settimeout(0.3)
            try:
                received = waiting.recv(1)
            except TimeoutError:
                received = b""
            self.expect("no response before the first client has closed", b"", received)
            silent.close()
            waiting.settimeout(LIMIT)
            self.expect("the response to the second client", b"HTTP/1.1 403", read_all(waiting)[:12])
        self.expect("the lines of turns", ("400 -\n403 REVIVE\n", "", 0), serve.end())

    def unprintable(self):
        """Checks that serve ends after the response whose line cannot be printed."""
        data = request(call("REVIVE", None))
        with open("/dev/full", "wb") as full:
            serve = Serve(self.program, 2, out=full)
            self.expect("the response before a line that cannot be printed", "403", serve.status(data))
            self.expect("a line that cannot be printed", ("", "write failed after 0\n", 1), serve.end())
        with tempfile.TemporaryFile() as file:
            serve = Serve(self.program, 3, out=file, room=15)
            statuses = [serve.status(data), serve.status(data)]
            self.expect("a line that is cut off", (["403", "403"], ("", "write failed after 15\n", 1)), (statuses, serve.end()))
            file.seek(0)
            self.expect("the printed part of that line", b"403 REVIVE\n403 ", file.read())

    def streams(self):
        """Compares the ids of streams, from --stream and after the largest; and checks that a second RESCIND is not sent."""
        serve = Serve(self.program, 3, more=("--stream", "{ffffffff-ffff-ffff-ffff-fffffffffffe}"))
        # The stream that a SUBSCRIBE names is ignored.
        ids = [re.search(r"Stream-Id: (\S+)", serve.ask(request(SUBSCRIBE, named)).decode())[1] for named in (None, "s1", STREAM % 1)]
        self.expect("ids that wrap around", [f"ffffffff-ffff-ffff-ffff-{12 * 'f'}"[:-1] + "e", "f" * 8 + "-ffff-ffff-ffff-" + "f" * 12, "0" * 8 + "-0000-0000-0000-" + "0" * 12], ids)
        self.expect("three streams", (3 * "200 SUBSCRIBE\n", "", 0), serve.end())
        rescind = record('{"type":"RESCIND","rescind":{"offer_id":{"value":"O1"}}}')
        serve = Serve(self.program, 1, record('{"type":"OFFERS","offers":[%s]}' % OFFER) + rescind + rescind)
        body = serve.ask(request(SUBSCRIBE)).decode().split("\r\n\r\n", 1)[1]
        shown = self.run(["show", "--chunked"], body)[0].splitlines()
        self.expect("a RESCIND is sent once", ['1 SUBSCRIBED "F1" 15.0', "2 OFFERS 1", '  "O1" "A1" "h" 0', '3 RESCIND "O1"'], shown[:-1])
        serve.end()

    def unwritable(self):
        """Serves a stream that cannot be encoded: no byte of it is written, and the line reports that."""
        serve = Serve(self.program, 2, record(DEEP))
        self.expect("no byte of the stream is written", b"", serve.ask(request(SUBSCRIBE)))
        self.expect("the stream is the current one", "202", serve.status(request(call("REVIVE", None), STREAM % 1)))
        self.expect("the lines of such a stream", ("200 SUBSCRIBE\nnet write failed\n202 REVIVE\n", "", 0), serve.end())

    def faults(self):
        """Runs the commands with invalid input, ports and hosts."""
        with socket.create_server(("127.0.0.1", 0)) as held:
            port = str(held.getsockname()[1])
            self.expect("a port in use", ("net bind failed\n", "", 1), self.run(["serve", "--port", port, "--count", "1"]))
        to = f"127.0.0.1:{free_port()}"
        self.expect("a port without a server", ("net connect failed\n", "", 1), self.run(["subscribe", "--to", to, "--user", "u", "--name", "n"]))
        fault = ("fault F11 Text record 1 byte 0 End after 2\n", "", 1)
        self.expect("invalid input of serve", fault, self.run(["serve", "--port", port, "--count", "1"], "0\n"))
        self.expect("invalid input of loopback", fault, self.run(["loopback"], "0\n"))
        for host in ["", "a" * 256, "a b", "h\x7f"]:
            got = self.run(["subscribe", "--to", host, "--user", "u", "--name", "n"])
            self.expect(f"the host {host[:9]!r}", ("", "bad value --to\n", 2), got)
        got = self.run(["serve", "--port", "1", "--count", "1", "--stream", "x"])
        self.expect("a stream id that is not a UUID", ("", "bad value --stream\n", 2), got)

    # ---- loopback

    def loopback(self):
        self.expect("loopback", ('1 SUBSCRIBED "F1" 15.0\n2 HEARTBEAT\nevents 2 bytes 138\n', "", 0), self.run(["loopback"], BEAT))
        self.expect("loopback of nothing", ('1 SUBSCRIBED "F1" 15.0\nevents 1 bytes 115\n', "", 0), self.run(["loopback"]))
        for size in [1, 7, 4095, 4096, 4097, 16777216]:
            body = chunked(SUBSCRIBED + 1000 * BEAT, size)
            lines = '1 SUBSCRIBED "F1" 15.0\n' + "".join(f"{n} HEARTBEAT\n" for n in range(2, 1002)) + f"events 1001 bytes {len(body)}\n"
            self.expect(f"loopback --most {size}", (lines, "", 0), self.run(["loopback", "--most", str(size)], 1000 * BEAT))
        # More than the buffers of the two sockets: the ends must take turns.
        text, large = 4_000_000 * "a", 10
        body = chunked(SUBSCRIBED + large * record('{"type":"ERROR","error":{"message":"%s"}}' % text), 4096)
        lines = '1 SUBSCRIBED "F1" 15.0\n' + "".join(f'{n} ERROR "{text}"\n' for n in range(2, large + 2)) + f"events {large + 1} bytes {len(body)}\n"
        got = self.run(["loopback"], large * record('{"type":"ERROR","error":{"message":"%s"}}' % text))
        self.expect("loopback of 40 MB", (True, "", 0), (got[0] == lines, got[1], got[2]))
        self.expect("loopback of an event that cannot be encoded", ("net write failed\n", "", 1), self.run(["loopback"], record(DEEP)))

    # ---- subscribe

    def heads(self):
        """Subscribes to servers that send unusual heads, in one piece and a byte a segment."""
        head = "HTTP/1.1 200 OK\r\ncontent-TYPE:application/JSON;charset=utf-8\r\ntransfer-ENCODING: Chunked \r\nMESOS-stream-id:\ts1\r\n\r\n"
        text = SUBSCRIBED + BEAT
        body = f"5;a=b\r\n{text[:5]}\r\n{len(text) - 5:X};q=\"z\"\r\n{text[5:]}\r\n0\r\nT: v\r\n\r\n"
        good = ('1 SUBSCRIBED "F1" 15.0\n2 HEARTBEAT\nevents 2 bytes %d\n' % len(body), "", 0)
        got, sent = self.subscribe([(head + body).encode()])
        self.expect("a response in one piece", good, got)
        call_text = '{"type":"SUBSCRIBE","subscribe":{"framework_info":{"user":"u","name":"n"}}}'
        self.expect("the request", ("POST /api/v1/scheduler HTTP/1.1", call_text), (sent.split("\r\n")[0], sent.split("\r\n\r\n")[1]))
        self.expect("a response of a byte a segment", good, self.subscribe([bytes([byte]) for byte in (head + body).encode()])[0])
        refused = [
            (head.replace("200 OK", "403 Forbidden"), "refused H4 Status 403\n"),
            (head.replace("Chunked", "gzip"), "refused H5 NotChunked\n"),
            (head.replace("JSON", "x-protobuf"), "refused H6 NotJson\n"),
            (head.replace("MESOS", "M"), "refused H7 NoStreamId\n"),
            ("HTTP/1.1 200 OK\r\nA: " + 20000 * "a", "refused H2 HeadTooLong\n"),
            ("\x00", "refused H3 BadHead\n"),
        ]
        for text, line in refused:
            self.expect(f"the head is {line.strip()}", (line, "", 1), self.subscribe([text.encode()])[0], text)
        plain = "HTTP/1.1 200 OK\r\nContent-Type: application/json\r\nTransfer-Encoding: chunked\r\nMesos-Stream-Id: s1\r\n\r\n"
        got = self.subscribe([(plain + "8\r\n4194305\n").encode()])[0]
        self.expect("a record larger than the default limit", ("fault F9 RecordTooLarge after 11\n", "", 1), got)
        self.expect("--reads 0", ("fault F15 ReadsSpent after 0\n", "", 1), self.subscribe([(head + body).encode()], ["--reads", "0"])[0])

    def json_lines(self):
        """Subscribes with --json: the events are on standard output, all other lines on standard error."""
        head = "HTTP/1.1 200 OK\r\nContent-Type: application/json\r\nTransfer-Encoding: chunked\r\nMesos-Stream-Id: s1\r\n\r\n"
        body = chunked(SUBSCRIBED + BEAT, 50)
        first, beat = SUBSCRIBED[4:] + "\n", BEAT[3:] + "\n"
        for title, pieces in [("one piece", [head + body]), ("a byte a segment", head + body)]:
            got = self.subscribe([piece.encode() for piece in pieces], ["--json"])[0]
            self.expect(f"--json, a response in {title}", (first + beat, f"events 2 bytes {len(body)}\n", 0), got)
        for title, text, out, err in [
            ("--json, a refused head", head.replace("200 OK", "403 Forbidden"), "", "refused H4 Status 403\n"),
            ("--json, a head that is cut", head[:-1], "", "refused H3 BadHead\n"),
            ("--json, a body that is cut", head + body[:-1], first + beat, f"fault F6 EndsInsideChunks after {len(body) - 1}\n"),
            ("--json, an event without canonical text", head + chunked(BEAT + record(DEEP) + BEAT, 4096), beat, "encode failed event 2 TooDeep\n"),
        ]:
            self.expect(title, (out, err, 1), self.subscribe([text.encode()], ["--json"])[0])
        got = self.run(["subscribe", "--to", f"127.0.0.1:{free_port()}", "--user", "u", "--name", "n", "--json"])
        self.expect("--json, a port without a server", ("", "net connect failed\n", 1), got)

    def cut_responses(self):
        """Subscribes to servers that close after each byte of the head and of the first records."""
        head = f"HTTP/1.1 200 OK\r\nContent-Type: application/json\r\nTransfer-Encoding: chunked\r\nMesos-Stream-Id: s1\r\n\r\n"
        body = chunked(BEAT + BEAT, 23)
        for cut in range(len(head)):
            self.expect(f"the head is cut after {cut} bytes", ("refused H3 BadHead\n", "", 1), self.subscribe([head[:cut].encode()])[0])
        for cut in range(len(body)):
            # A record is whole after the 4 bytes of its chunk's line and its own 23 bytes.
            shown = "".join(f"{n} HEARTBEAT\n" for n in (1, 2) if cut >= 27 + (n - 1) * 29)
            expected = (shown + f"fault F6 EndsInsideChunks after {cut}\n", "", 1)
            self.expect(f"the body is cut after {cut} bytes", expected, self.subscribe([(head + body[:cut]).encode()])[0])

    # ---- standard streams that are closed

    def closed_streams(self):
        """Closes standard streams, whose numbers a socket would get: no line may be sent to the peer."""
        head = "HTTP/1.1 200 OK\r\nContent-Type: application/json\r\nTransfer-Encoding: chunked\r\nMesos-Stream-Id: s1\r\n\r\n"
        sent = '{"type":"SUBSCRIBE","subscribe":{"framework_info":{"user":"u","name":"n"}}}'
        for closed in [(0,), (1,), (2,), (0, 1), (0, 1, 2)]:
            server = Server([(head + chunked(BEAT, 23)).encode()])
            args = ["subscribe", "--to", f"127.0.0.1:{server.port}", "--user", "u", "--name", "n"]
            out, err, status = self.run_closed(args, closed)
            server.thread.join(LIMIT)
            received = (server.request.decode().split("\r\n\r\n")[1], server.rest)
            self.expect(f"the bytes that subscribe sends with {closed} closed", (sent, b""), received)
            self.expect(f"the status with {closed} closed", (1 if 1 in closed else 0), status)
            if 1 not in closed:
                self.expect(f"standard output with {closed} closed", "1 HEARTBEAT\nevents 1 bytes 34\n", out)
            elif 2 not in closed:
                self.expect(f"standard error with {closed} closed", "write failed after 0\n", err)
        got = self.run_closed(["loopback"], (1,), BEAT)
        self.expect("loopback with its output closed", ("", "write failed after 0\n", 1), got)
        self.expect("check with its input closed", ("fault F14 Read after 0\n", "", 1), self.run_closed(["check"], (0,)))
        serve = Serve(self.program, 2, closed=(1,))
        self.expect("a response of serve with its output closed", "403", serve.status(request(call("REVIVE", None))))
        self.expect("serve with its output closed", ("", "write failed after 0\n", 1), serve.end())

    def run_closed(self, args, closed, text=""):
        """Returns both outputs and the status of a run whose standard streams `closed` are closed."""
        how = {"input": text.encode(), "capture_output": True, "timeout": LIMIT, "check": False}
        ran = subprocess.run([self.program, *args], preexec_fn=lambda: close_all(closed), **how)
        return ran.stdout.decode(), ran.stderr.decode(), ran.returncode

    # ---- all together

    def circle(self):
        """Connects subscribe to serve, and runs check on the body that serve sends."""
        events = 100 * (BEAT + record('{"type":"OFFERS","offers":[%s]}' % OFFER)) + record('{"type":"X"}')
        serve = Serve(self.program, 2, events)
        with serve.connect() as first:
            first.sendall(request(SUBSCRIBE))
            body = read_all(first).decode().split("\r\n\r\n", 1)[1]
        got = self.run(["subscribe", "--to", f"127.0.0.1:{serve.port}", "--user", "u", "--name", "n"])
        self.expect("the lines of serve for two clients", (2 * "200 SUBSCRIBE\n", "", 0), serve.end())
        # The offer is sent on the first stream only: the id of an offer is never used again.
        self.expect("check of the body from serve", f"events 103 bytes {len(body)}\n", self.run(["check", "--chunked"], body)[0])
        beats = "".join(f"{n} HEARTBEAT\n" for n in range(2, 102))
        shown = '1 SUBSCRIBED "F1" 15.0\n%s102 OTHER "X"\nevents 102 bytes 2431\n' % beats
        self.expect("the lines of subscribe", (shown, "", 0), got)

    def curl(self):
        if shutil.which("curl") is None:
            self.skip("curl", "it is not installed")
            return
        serve, lines = Serve(self.program, 6 + 2 * len(CALLS), BEAT), ["400 -", "200 SUBSCRIBE"]
        serve.cut(b"")
        url = f"http://127.0.0.1:{serve.port}/api/v1/scheduler"

        def ask(*args):
            ran = subprocess.run(["curl", "-s", "-m", str(LIMIT), "--noproxy", "*", *args], capture_output=True, timeout=LIMIT, check=False)
            return ran.stdout.decode()

        json, written = ["-H", "Content-Type: application/json"], ["-o", "/dev/null", "-w", "%{http_code}"]
        first, second = (["-H", f"Mesos-Stream-Id: {STREAM % number}"] for number in (1, 2))
        self.expect("curl: SUBSCRIBE", SUBSCRIBED + BEAT + "200", ask("--no-buffer", "-w", "%{http_code}", *json, "-d", SUBSCRIBE, url))
        revive = call("REVIVE", None)
        rows = [
            ("GET", [url], "405", "405 -"),
            ("another path", [*json, "-d", revive, url[: -len("/api/v1/scheduler")] + "/x"], "404", "404 -"),
            ("a chunked request", [*json, "-H", "Transfer-Encoding: chunked", "-d", revive, url], "400", "400 -"),
            ("SUBSCRIBE on a stream", [*json, *first, "-d", SUBSCRIBE, url], "200", "200 SUBSCRIBE"),
        ]
        for name, body in CALLS:
            args = [*json, "-d", call(name, body), url]
            rows.append((f"{name} on no stream", args, "400", f"400 {name}"))
            rows.append((name, [*second, *args], "202", f"202 {name}"))
        for name, args, status, _ in rows:
            self.expect(f"curl: {name}", status, ask(*written, *args))
        lines += [row[3] for row in rows]
        self.expect("the lines of curl", ("".join(line + "\n" for line in lines), "", 0), serve.end())


def main():
    arguments = parser(__doc__, 'tests/net.py $(tools/built checked) -k "bad clients"', "program").parse_args()
    tests = Tests(arguments.program, arguments.word)
    tests.run_chosen(
        tests.calls, tests.requests, tests.large_bodies, tests.cuts, tests.bad_clients, tests.resets, tests.resets_in_the_queue,
        tests.turns, tests.unprintable, tests.streams, tests.unwritable, tests.faults, tests.loopback,
        tests.heads, tests.json_lines, tests.cut_responses, tests.closed_streams, tests.circle, tests.curl,
        errors=(OSError, subprocess.TimeoutExpired, IndexError, TypeError),
    )
    return tests.end()


if __name__ == "__main__":
    sys.exit(main())
