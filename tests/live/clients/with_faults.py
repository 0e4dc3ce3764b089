"""A scheduler that bears the faults of examples/chaos: with_faults.py HOST:PORT [early | hangs].

It runs a task to its end. With `early` it has a mistake: it counts the task as launched before its ACCEPT got a response, so
that it launches nothing after a 503. With `hangs` it does nothing, and ignores SIGTERM.
"""
import http.client
import json
import os
import signal
import sys
import time

from common import INFO, PATH, events_of

JSON = {"Content-Type": "application/json"}
# The states after which a task does not run. A task that is to run again needs another id.
LOST = ("TASK_LOST", "TASK_FAILED", "TASK_ERROR", "TASK_DROPPED", "TASK_GONE", "TASK_KILLED")
# The seconds between two attempts, and the HEARTBEATs that may be missing before the stream counts as broken.
PAUSE, MISSING = 0.2, 3


class Disconnected(Exception):
    """The stream is not current any more."""


class Scheduler:
    def __init__(self, address, is_early):
        self.address, self.is_early = address, is_early
        self.framework, self.fields, self.task, self.launches = None, {}, None, 0

    def post(self, connection, call, fields):
        """Returns the response to a call. After a 503 it was not carried out, and is sent again, unless the scheduler has the mistake."""
        while True:
            connection.request("POST", PATH, json.dumps(call), JSON | fields)
            response = connection.getresponse()
            if response.status != 503 or call["type"] == "ACCEPT" and self.is_early:
                return response
            response.read()
            time.sleep(PAUSE)

    def send(self, name, **body):
        """Sends a call on the current stream."""
        call = {"type": name, "framework_id": self.framework} | ({name.lower(): body} if body else {})
        response = self.post(self.calls, call, self.fields)
        response.read()
        if response.status in (400, 403):
            raise Disconnected(f"{name}: status {response.status}")

    def subscribe(self):
        """Subscribes as the same framework, and yields the events of the stream."""
        info = INFO | ({"id": self.framework} if self.framework else {})
        call = {"type": "SUBSCRIBE", "subscribe": {"framework_info": info}} | ({"framework_id": self.framework} if self.framework else {})
        stream, self.calls = (http.client.HTTPConnection(self.address, timeout=5) for _ in range(2))
        response = self.post(stream, call, {})
        self.fields = {"Mesos-Stream-Id": response.getheader("Mesos-Stream-Id")}
        for event in events_of(iter(response.read1, b"")):
            if event["type"] == "SUBSCRIBED":
                self.framework = event["subscribed"]["framework_id"]
                stream.sock.settimeout(MISSING * event["subscribed"]["heartbeat_interval_seconds"])
            yield event

    def launch(self, offer):
        """Launches the task on an offer, under an id that no task had before."""
        self.launches += 1
        name = f"t{self.launches}"
        task = {"name": "t", "task_id": {"value": name}, "agent_id": offer["agent_id"], "resources": offer["resources"], "command": {"value": "true"}}
        if self.is_early:
            self.task = name
        self.send("ACCEPT", offer_ids=[offer["id"]], operations=[{"type": "LAUNCH", "launch": {"task_infos": [task]}}])
        self.task = name

    def update(self, status):
        """Acknowledges an update, if it needs that. Returns whether the task has finished."""
        if "uuid" in status:
            self.send("ACKNOWLEDGE", **{name: status[name] for name in ("agent_id", "task_id", "uuid")})
        print(status["task_id"]["value"], status["state"], flush=True)
        if status["task_id"]["value"] == self.task and status["state"] in LOST:
            self.task = None
        return status["state"] == "TASK_FINISHED"

    def run(self):
        """Takes the events of a stream. Returns whether the task has finished."""
        for event in self.subscribe():
            for offer in event["offers"]["offers"] if event["type"] == "OFFERS" else ():
                if self.task is None:
                    self.launch(offer)
                else:
                    self.send("DECLINE", offer_ids=[offer["id"]])
            if event["type"] == "UPDATE" and self.update(event["update"]["status"]):
                self.send("TEARDOWN")
                return True
        return False


def main(address, kind=""):
    if kind == "hangs":
        signal.signal(signal.SIGTERM, signal.SIG_IGN)
        print(f"process {os.getpid()}", flush=True)
        time.sleep(600)
    scheduler, has_finished = Scheduler(address, kind == "early"), False
    while not has_finished:
        try:
            has_finished = scheduler.run()
        except (Disconnected, OSError, http.client.HTTPException) as error:
            print(f"subscribes again: {error!r}", flush=True)
        time.sleep(PAUSE)


if __name__ == "__main__":
    main(*sys.argv[1:])
