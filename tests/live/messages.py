"""Events and calls of the scheduler API (v1 scheduler.proto and mesos.proto, in JSON)."""
import base64

from support import record
from wire import text_of

INFO = {"user": "root", "name": "n"}
SUBSCRIBE = {"type": "SUBSCRIBE", "subscribe": {"framework_info": INFO}}


def named(name):
    return {"value": name}


def amount(name, value):
    return {"name": name, "type": "SCALAR", "scalar": {"value": value}}


def offer(name, agent="A1", cpus=1.0, mem=100.0, framework="F1"):
    resources = [amount("cpus", cpus), amount("mem", mem)]
    return {"id": named(name), "framework_id": named(framework), "agent_id": named(agent), "hostname": "h", "resources": resources}


def offers(*made):
    """Returns the record of an OFFERS."""
    return record(text_of({"type": "OFFERS", "offers": {"offers": list(made)}}))


def event(name, **body):
    """Returns an event of this type and body, such as `event("ERROR", message="m")`."""
    return {"type": name, name.lower(): body} if body else {"type": name}


def records(*events):
    return "".join(record(text_of(it)) for it in events)


def task(name, cpus=0.5, agent="A1", mem=10.0):
    return {"name": name, "task_id": named(name), "agent_id": named(agent), "resources": [amount("cpus", cpus), amount("mem", mem)]}


def launch(ids, *tasks, **filters):
    """Returns the body of an ACCEPT that launches the tasks on the offers."""
    body = {"offer_ids": [named(it) for it in ids]}
    if tasks:
        body["operations"] = [{"type": "LAUNCH", "launch": {"task_infos": list(tasks)}}]
    return body | ({"filters": filters} if filters else {})


def message(number):
    """Returns the body of a MESSAGE whose data are a number."""
    return {"agent_id": named("A1"), "executor_id": named("E1"), "data": base64.b64encode(b"%d" % number).decode()}


def call(name, framework="F1", body=None):
    it = {"type": name, "framework_id": named(framework)}
    return it if body is None else it | {name.lower(): body}


def states(updates):
    """Returns the task and the state of each of these UPDATEs, and of another event its type."""
    return [(it["update"]["status"]["task_id"]["value"], it["update"]["status"]["state"]) if it and "update" in it else it and it["type"] for it in updates]
