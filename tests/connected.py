#!/usr/bin/env python3
"""Compares sessions over real connections with `mesosev replay`, through losses and breaks.

In each run a scheduler of lib/mesosev.py subscribes to `mesosev master` through a proxy that breaks some streams at a
random byte. The scheduler takes events, makes random calls, and subscribes again after a break or on its own, whereby it
loses the events that it has not taken. In the end `replay --json` of its log must print the state of its session. A case
is a run. MESOSEV_LIBRARY names the C library; without it nothing is run.
"""
import contextlib
import io
import os
import random
import socket
import sys
import threading

sys.dont_write_bytecode = True
TOP = os.path.dirname(os.path.dirname(os.path.abspath(__file__)))
sys.path.insert(0, os.path.join(TOP, "lib"))

import mesosev  # noqa: E402
from sessions import log_differences, run_cases  # noqa: E402

INFO = {"user": "root", "name": "connected"}
# A proxy breaks at most half of the streams before their first event.
MOST_ATTEMPTS = 100


class Proxy:
    """Forwards connections to a port. Ends those with a SUBSCRIBE after a random number of bytes of the response."""

    def __init__(self, port, chosen):
        self.port, self.random = port, chosen
        self.listener = socket.create_server(("127.0.0.1", 0))
        self.url = f"http://127.0.0.1:{self.listener.getsockname()[1]}"
        threading.Thread(target=self.accept, daemon=True).start()

    def accept(self):
        while True:
            try:
                client, _ = self.listener.accept()
            except OSError:
                return
            threading.Thread(target=self.serve, args=(client,), daemon=True).start()

    def serve(self, client):
        """Forwards one connection. It has one request if that is a SUBSCRIBE."""
        with client, socket.create_connection(("127.0.0.1", self.port)) as master:
            try:
                request = client.recv(65_536)
                while not is_whole(request):
                    request += client.recv(65_536)
                master.sendall(request)
                if b'"SUBSCRIBE"' in request:
                    self.forward(master, client, self.random.choice((300, 700, 1500, 4000, 1 << 30)))
                    return
                threading.Thread(target=self.forward, args=(client, master, 1 << 30), daemon=True).start()
                self.forward(master, client, 1 << 30)
            except OSError:
                return

    def forward(self, source, target, most):
        """Forwards at most this number of bytes."""
        try:
            while most > 0 and (data := source.recv(min(most, 65_536))):
                target.sendall(data)
                most -= len(data)
            target.shutdown(socket.SHUT_WR)
        except OSError:
            pass


def is_whole(request):
    """Returns whether a request has its head and the bytes of its Content-Length."""
    head, end, body = request.partition(b"\r\n\r\n")
    size = next((int(line.split(b":")[1]) for line in head.split(b"\r\n") if line.lower().startswith(b"content-length:")), 0)
    return bool(end) and len(body) >= size


def offers(chosen, first):
    """Returns an OFFERS of one to three offers."""
    listed = [
        {
            "id": {"value": f"O{first}-{number}"},
            "framework_id": {"value": "F1"},
            "agent_id": {"value": f"A{chosen.randrange(2)}"},
            "hostname": "h",
            "resources": [{"name": "cpus", "type": "SCALAR", "scalar": {"value": 2}}, {"name": "mem", "type": "SCALAR", "scalar": {"value": 512}}],
        }
        for number in range(chosen.randint(1, 3))
    ]
    return {"type": "OFFERS", "offers": {"offers": listed}}


def until_whole(subscribe):
    """Subscribes until the first event of a stream comes whole. Returns what the function returns."""
    for _ in range(MOST_ATTEMPTS):
        with contextlib.suppress(mesosev.StreamBroken, OSError):
            return subscribe()
    raise AssertionError(f"no stream after {MOST_ATTEMPTS} attempts")


class Run:
    """A scheduler that makes random calls over a connection."""

    def __init__(self, master, proxy, chosen):
        self.master, self.random, self.session, self.file = master, chosen, mesosev.Session(), io.BytesIO()
        self.tasks = 0
        log = mesosev.Log(self.file)
        self.connection = until_whole(lambda: mesosev.connect(proxy.url, INFO, timeout=10, session=self.session, log=log))

    def step(self, number):
        chosen = self.random.random()
        if chosen < 0.6:
            self.take()
        elif chosen < 0.7:
            self.master.send(offers(self.random, number))
        elif chosen < 0.75:
            self.reconnect()
        elif self.session.connected:
            try:
                self.call()
            except (mesosev.CallRefused, OSError):
                # The stream broke, and the scheduler has not read up to its end yet. The call counts as sent.
                self.reconnect()

    def take(self):
        """Takes the next event, or subscribes again if the stream broke or ended."""
        try:
            if next(self.connection, None) is None:
                self.reconnect()
        except (mesosev.StreamBroken, mesosev.Fault, OSError):
            self.reconnect()

    def reconnect(self):
        until_whole(self.connection.reconnect)

    def call(self):
        """Makes a call that the session allows."""
        session, outstanding = self.session, [*self.session.offers.values()]
        if session.unacknowledged and self.random.random() < 0.5:
            self.connection.post(session.acknowledge(self.random.choice([*session.unacknowledged])))
        elif outstanding and self.random.random() < 0.7:
            offer = self.random.choice(outstanding)
            self.tasks += 1
            resources = [{"name": "cpus", "type": "SCALAR", "scalar": {"value": self.random.choice((0.5, 2))}}]
            task = {"name": "t", "task_id": {"value": f"T{self.tasks}"}, "agent_id": offer["agent_id"], "resources": resources}
            self.connection.post(session.accept([offer], [task]))
        elif outstanding:
            self.connection.post(session.decline([self.random.choice(outstanding)]))
        else:
            self.connection.post(session.revive() if self.random.random() < 0.5 else session.kill(f"T{max(self.tasks, 1)}"))


def differences(program, seed, steps):
    """Yields what is different in one run."""
    chosen = random.Random(seed)
    given = [offers(chosen, f"{number}a") for number in range(2)]
    with mesosev.Master(given, command=program, heartbeat=1, finish_after=1, chunk=chosen.choice((7, 100, 4096))) as master:
        proxy = Proxy(int(master.address.rsplit(":", 1)[1]), chosen)
        run = Run(master, proxy, chosen)
        with run.connection:
            for number in range(steps):
                run.step(number)
        proxy.listener.close()
    yield from log_differences(program, run.session, run.file.getvalue())
    run.session.close()


if __name__ == "__main__":
    sys.exit(run_cases(__doc__, "run", 12, 40, differences))
