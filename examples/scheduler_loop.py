#!/usr/bin/env python3
"""usage: mesosev master --port 0 --once --seconds 60 <examples/offers.recordio |
           examples/scheduler_loop.py
       examples/scheduler_loop.py HOST:PORT

Runs a scheduler that needs only the standard library of Python. It launches a task on the first
offer, declines the others, acknowledges each update, and prints the states of the task. Once the
task runs, it tears its framework down, so that the master ends the stream. It also gives up after
three tasks that the master refused.

Without HOST:PORT, the address is the last word of the first line of standard input. That is the
line `listening on HOST:PORT` of `mesosev master`; another line is an error. If the scheduler
fails, the master goes on: `--once` ends it only after a TEARDOWN, `--seconds 60` in any case.

The status is 0 if a task ran. It is 1 otherwise, with the reason on standard error.
"""
import http.client
import json
import sys

PATH = "/api/v1/scheduler"
# What a task asks for. A Mesos master refuses a task without resources or without a command.
CPUS, MEM, COMMAND = 0.5, 128, "sleep 100"
# The states of a task that the master refused, and the number of them after which to give up.
REFUSED, MOST_REFUSED = ("TASK_ERROR", "TASK_LOST"), 3


class Scheduler:
    """A framework: its stream of events, and one connection for its other calls."""

    def __init__(self, address, note=lambda letter, value: None):
        """Subscribes a framework to the master at this address.

        Calls `note("C", call)` before each call, and `note("E", event)` after each event.
        """
        self.note, self.framework = note, None
        self.fields = {"Content-Type": "application/json"}
        info = {"user": "root", "name": "loop"}
        call = {"type": "SUBSCRIBE", "subscribe": {"framework_info": info}}
        self.stream = self.post(http.client.HTTPConnection(address), call, 200)
        self.fields["Mesos-Stream-Id"] = self.stream.headers["Mesos-Stream-Id"]
        self.calls = http.client.HTTPConnection(address)

    def post(self, connection, call, expected):
        """Sends a call, and returns the response. Ends the program if it has another status."""
        self.note("C", call)
        connection.request("POST", PATH, json.dumps(call), self.fields)
        response = connection.getresponse()
        if response.status != expected:
            sys.exit(f"{call['type']}: status {response.status}")
        return response

    def send(self, name, **body):
        """Sends a call of this type, with these members of its body."""
        call = {"type": name, "framework_id": self.framework}
        if body:
            call[name.lower()] = body
        self.post(self.calls, call, 202).read()

    def acknowledge(self, status):
        """Acknowledges an update. One without a uuid needs no acknowledgement."""
        if "uuid" in status:
            key = {name: status[name] for name in ("agent_id", "task_id", "uuid")}
            self.send("ACKNOWLEDGE", **key)

    def events(self):
        """Yields the events of the stream until the master ends it."""
        # RecordIO: a line with the size of the event, and then the event.
        while size := self.stream.readline():
            event = json.loads(self.stream.read(int(size)))
            self.note("E", event)
            if event["type"] == "SUBSCRIBED":
                self.framework = event["subscribed"]["framework_id"]
            yield event


def scalar(name, value):
    return {"name": name, "type": "SCALAR", "scalar": {"value": value}}


def launch_on(offer):
    """Returns the operation that launches a task on an offer, whose id is part of its name."""
    name = "task-" + offer["id"]["value"]
    task = {
        "name": name,
        "task_id": {"value": name},
        "agent_id": offer["agent_id"],
        "resources": [scalar("cpus", CPUS), scalar("mem", MEM)],
        "command": {"value": COMMAND},
    }
    return {"type": "LAUNCH", "launch": {"task_infos": [task]}}


def line_of(status):
    """Returns the line of an update: the task, its state, and the message if there is one."""
    parts = [status["task_id"]["value"], status["state"], status.get("message")]
    return " ".join(filter(None, parts))


def run(scheduler):
    """Launches tasks until one runs. Returns false if none does before the stream ends, or if
    `MOST_REFUSED` are refused."""
    refused = 0
    for event in scheduler.events():
        if event["type"] == "OFFERS":
            first, *others = event["offers"]["offers"]
            scheduler.send("ACCEPT", offer_ids=[first["id"]], operations=[launch_on(first)])
            scheduler.send("DECLINE", offer_ids=[offer["id"] for offer in others])
        elif event["type"] == "UPDATE":
            status = event["update"]["status"]
            print(line_of(status), flush=True)
            scheduler.acknowledge(status)
            refused += status["state"] in REFUSED
            if status["state"] == "TASK_RUNNING" or refused == MOST_REFUSED:
                scheduler.send("TEARDOWN")
                return refused < MOST_REFUSED
    return False


def address():
    """Returns the address of the master: the argument, or that of the line on standard input."""
    if len(sys.argv) > 1:
        return sys.argv[1]
    line = sys.stdin.readline().rstrip("\n")
    if not line.startswith("listening on "):
        sys.exit(line or "no line on standard input")
    return line.split()[-1]


def main():
    if not run(Scheduler(address())):
        sys.exit("no task ran")


if __name__ == "__main__":
    main()
