"""What the schedulers of this folder do: launch a task, acknowledge, make 200 calls on connections that are kept, kill, tear down."""
import collections
import json

INFO = {"user": "root", "name": "n"}
SUBSCRIBE = {"type": "SUBSCRIBE", "subscribe": {"framework_info": INFO}}
PATH = "/api/v1/scheduler"
MANY = 200


def events_of(pieces):
    """Yields the events of a stream whose pieces come without their chunks."""
    data = b""
    for piece in pieces:
        data += piece
        while (end := data.find(b"\n") + 1) and len(data) >= end + int(data[:end]):
            size = int(data[:end])
            yield json.loads(data[end : end + size])
            data = data[end + size :]


class Scheduler:
    """Makes the calls for each event. `print_end` prints the states, the statuses and how many connections were used for them."""

    def __init__(self):
        self.framework, self.has_launched, self.states, self.statuses = None, False, [], collections.Counter()

    def call(self, name, **body):
        return {"type": name, "framework_id": self.framework} | ({name.lower(): body} if body else {})

    def accept(self, offer):
        task = {"name": "t", "task_id": {"value": "T1"}, "agent_id": offer["agent_id"], "resources": offer["resources"]}
        return self.call("ACCEPT", offer_ids=[offer["id"]], operations=[{"type": "LAUNCH", "launch": {"task_infos": [task]}}])

    def calls_for(self, event):
        """Returns the lists of calls for an event. Those of one list may be made at once."""
        if event["type"] == "SUBSCRIBED":
            self.framework = event["subscribed"]["framework_id"]
        if event["type"] == "OFFERS" and not self.has_launched:
            self.has_launched = True
            return [[self.accept(event["offers"]["offers"][0])]]
        if event["type"] != "UPDATE":
            return []
        status = event["update"]["status"]
        self.states.append(status["state"])
        calls = [[self.call("ACKNOWLEDGE", **{name: status[name] for name in ("agent_id", "task_id", "uuid")})]]
        if status["state"] == "TASK_RUNNING":
            calls += [MANY * [self.call("REVIVE")], [self.call("KILL", task_id={"value": "T1"})]]
        if status["state"] == "TASK_KILLED":
            calls += [[self.call("TEARDOWN")]]
        return calls

    def run(self, pieces, send):
        """Makes the calls by `send`, which returns the status of a response, until the stream ends."""
        for event in events_of(pieces):
            for calls in self.calls_for(event):
                for it in calls:
                    self.statuses[send(it)] += 1

    def print_end(self, connections):
        print(*self.states)
        print(*(f"{count} {status}" for status, count in sorted(self.statuses.items())))
        print(f"connections {connections}")
