"""Requests, responses and streams of events as bytes on a socket, as a client of the scheduler API sends and reads them."""
import json
import select
import socket
import struct
import time
from collections import namedtuple

# How long anything may take, in seconds. Other tests run beside it.
LIMIT = 60
PATH = "/api/v1/scheduler"
# A status, the fields with their names in lower case, and the body.
Response = namedtuple("Response", "status fields body")


class Broken(Exception):
    """What came is no response and no stream, or it did not come in time."""


def text_of(value):
    return json.dumps(value, separators=(",", ":"))


def request(call, stream=None, *fields, version="HTTP/1.1", method="POST", path=PATH, length=None):
    """Returns the bytes of a request: a call, or a body as bytes, and more lines of the head."""
    body = call if isinstance(call, bytes) else text_of(call).encode()
    lines = [f"{method} {path} {version}", "Host: 127.0.0.1", "Content-Type: application/json"]
    if stream:
        lines.append(f"Mesos-Stream-Id: {stream}")
    lines += [*fields, f"Content-Length: {len(body) if length is None else length}"]
    return "".join(line + "\r\n" for line in lines).encode() + b"\r\n" + body


class Connection:
    """A connection to a port of 127.0.0.1, and the bytes that came and were not used."""

    def __init__(self, port, most=None):
        """With `most`, the socket buffers about that many bytes that came."""
        self.socket = socket.socket()
        if most:
            self.socket.setsockopt(socket.SOL_SOCKET, socket.SO_RCVBUF, most)
        self.socket.settimeout(LIMIT)
        self.socket.connect(("127.0.0.1", port))
        self.socket.setsockopt(socket.IPPROTO_TCP, socket.TCP_NODELAY, 1)
        self.came = bytearray()

    def send(self, data):
        self.socket.sendall(data)

    def read_more(self, limit=LIMIT):
        """Reads what there is. Returns whether the other end is still open."""
        self.socket.settimeout(max(limit, 0.001))
        try:
            more = self.socket.recv(1 << 20)
        except TimeoutError as error:
            raise Broken(f"nothing came in {limit:.1f} s after {bytes(self.came)[-200:]!r}") from error
        self.came += more
        return bool(more)

    def read_to(self, mark):
        """Returns the bytes before a mark, and uses the mark too."""
        while (at := self.came.find(mark)) < 0:
            if not self.read_more():
                raise Broken(f"the connection ended after {bytes(self.came)[-200:]!r}")
        data = bytes(self.came[:at])
        del self.came[: at + len(mark)]
        return data

    def read_exactly(self, count):
        while len(self.came) < count:
            if not self.read_more():
                raise Broken(f"the connection ended {count - len(self.came)} bytes before the end of a body")
        data = bytes(self.came[:count])
        del self.came[:count]
        return data

    def read_head(self):
        """Reads the head of a response, and returns it with no body."""
        start, *lines = self.read_to(b"\r\n\r\n").decode("ascii").split("\r\n")
        version, status, *_ = start.split(" ")
        if version != "HTTP/1.1":
            raise Broken(f"no response of HTTP/1.1: {start!r}")
        fields = {}
        for line in lines:
            name, value = line.split(":", 1)
            if name.lower() in fields:
                raise Broken(f"the field {name} is there twice")
            fields[name.lower()] = value.strip(" \t")
        return Response(status, fields, b"")

    def read_response(self):
        """Reads a response with a `Content-Length`."""
        head = self.read_head()
        return head._replace(body=self.read_exactly(int(head.fields.get("content-length", "-1"))))

    def ask(self, data):
        """Sends a request, and returns the status of its response."""
        self.send(data)
        return self.read_response().status

    def read_rest(self):
        """Returns what comes to the end of the connection, and `end`, or `reset` if it was reset."""
        try:
            while self.read_more():
                pass
            return bytes(self.came), "end"
        except ConnectionResetError:
            return bytes(self.came), "reset"

    def is_quiet(self, seconds):
        """Returns whether nothing comes, and the connection is not closed, for this long."""
        return not self.came and not select.select([self.socket], [], [], seconds)[0]

    def half_close(self):
        self.socket.shutdown(socket.SHUT_WR)

    def close(self):
        self.socket.close()

    def reset(self):
        self.socket.setsockopt(socket.SOL_SOCKET, socket.SO_LINGER, struct.pack("ii", 1, 0))
        self.socket.close()


class Stream(Connection):
    """A connection on which a SUBSCRIBE was sent, and the events that come on it: records of RecordIO in a chunked body."""

    def __init__(self, port, data, most=None):
        super().__init__(port, most)
        self.send(data)
        self.head = self.read_head()
        self.id = self.head.fields.get("mesos-stream-id")
        # The sizes of the chunks, the bytes of the chunks that were not used, whether the last chunk came.
        self.sizes, self.data, self.is_ended = [], bytearray(), False

    def take_chunk(self):
        """Takes a chunk of what came, if it is whole."""
        end = self.came.find(b"\r\n")
        if end < 0 or self.is_ended:
            return False
        size = int(self.came[:end], 16)
        if len(self.came) < end + 2 + size + 2:
            return False
        if self.came[end + 2 + size : end + 4 + size] != b"\r\n":
            raise Broken(f"no CR LF at the end of a chunk of {size} bytes")
        self.data += self.came[end + 2 : end + 2 + size]
        self.sizes.append(size)
        self.is_ended = size == 0
        del self.came[: end + 4 + size]
        return True

    def take_record(self):
        """Takes the data of a record of what came, if it is whole; else returns none."""
        end = self.data.find(b"\n")
        if end < 0 or len(self.data) < end + 1 + int(self.data[:end]):
            return None
        end, size = end + 1, int(self.data[:end])
        record = bytes(self.data[end : end + size])
        del self.data[: end + size]
        return record

    def read_event(self, limit=LIMIT):
        """Returns the next event, or none at the end of the stream."""
        until = time.monotonic() + limit
        while (record := self.take_record()) is None:
            if self.take_chunk():
                continue
            if self.is_ended:
                if self.data:
                    raise Broken(f"the stream ended inside a record: {bytes(self.data)!r}")
                return None
            if not self.read_more(until - time.monotonic()):
                raise Broken("the connection ended before the last chunk")
        return json.loads(record)

    def next(self, limit=LIMIT):
        """Returns the next event that is no HEARTBEAT, or none at the end of the stream."""
        until = time.monotonic() + limit
        while (event := self.read_event(until - time.monotonic())) == {"type": "HEARTBEAT"}:
            pass
        return event

    def read_within(self, seconds):
        """Returns the events that come in this time but HEARTBEATs, and the end of the stream as none."""
        until, events = time.monotonic() + seconds, []
        while not self.is_ended:
            try:
                events.append(self.next(until - time.monotonic()))
            except Broken as error:
                if isinstance(error.__cause__, TimeoutError):
                    return events
                raise
        return events
