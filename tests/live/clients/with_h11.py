"""A scheduler over h11, which checks each byte of a response against the grammar: with_h11.py PORT."""
import json
import socket
import sys

import h11
from common import PATH, SUBSCRIBE, Scheduler


class Connection:
    def __init__(self):
        self.socket = socket.create_connection(("127.0.0.1", int(sys.argv[1])), timeout=20)
        self.http = h11.Connection(h11.CLIENT)

    def send(self, call, *fields):
        body = json.dumps(call).encode()
        head = [("Host", "127.0.0.1"), ("Content-Type", "application/json"), ("Content-Length", str(len(body))), *fields]
        parts = h11.Request(method="POST", target=PATH, headers=head), h11.Data(data=body), h11.EndOfMessage()
        # In one segment: of two, the second one would wait for an acknowledgement of the first by TCP.
        self.socket.sendall(b"".join(self.http.send(part) for part in parts))

    def next(self):
        while (event := self.http.next_event()) is h11.NEED_DATA:
            self.http.receive_data(self.socket.recv(65536))
        return event

    def pieces(self):
        while not isinstance(event := self.next(), h11.EndOfMessage):
            yield bytes(event.data)

    def status_of(self, call, *fields):
        if self.http.our_state is h11.DONE:
            self.http.start_next_cycle()
        self.send(call, *fields)
        status = self.next().status_code
        assert not list(self.pieces())
        return status


first, calls = Connection(), Connection()
first.send(SUBSCRIBE)
fields = dict(first.next().headers)
scheduler = Scheduler()
scheduler.run(first.pieces(), lambda call: calls.status_of(call, ("Mesos-Stream-Id", fields[b"mesos-stream-id"])))
scheduler.print_end(1)
