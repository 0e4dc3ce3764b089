"""Finds the records of JSON Lines, and prints calls, by the rules of docs/FORMAT.md only ("JSON Lines" and "Lines")."""
import base64
import json
import uuid


def records_of_lines(data, limit):
    """Returns the records of JSON Lines up to one above the limit, and the bytes used up to F9 there, or None.

    A record has three parts: its text, the number of bytes up to the one at which its faults are reported, and the
    number of its line.
    """
    found, at, number = [], 0, 0
    while at < len(data):
        number += 1
        line, end, _ = data[at:].partition(b"\n")
        text = line.removesuffix(b"\r")
        if len(text) > limit:
            return found, at + limit + (2 if line[limit : limit + 1] == b"\r" else 1)
        at += len(line + end)
        if text:
            found.append((text, at, number))
    return found, None


def quoted(holder):
    return json.dumps(holder["value"], ensure_ascii=False)


def shown_call(number, call):
    """Returns the line that `show` prints for a call."""
    kind = call["type"]
    body = call.get(kind.lower(), {})

    def count(name):
        return str(len(body.get(name, [])))

    def uuid_of(text):
        data = base64.b64decode(text)
        return str(uuid.UUID(bytes=data)) if len(data) == 16 else f"hex:{data.hex()}"

    parts = {
        "SUBSCRIBE": lambda: [quoted(call["framework_id"]) if "framework_id" in call else "-"],
        "ACCEPT": lambda: [count("offer_ids"), count("operations")],
        "DECLINE": lambda: [count("offer_ids")],
        "KILL": lambda: [quoted(body["task_id"])],
        "ACKNOWLEDGE": lambda: [quoted(body["task_id"]), uuid_of(body["uuid"])],
        "RECONCILE": lambda: [count("tasks")],
        "SHUTDOWN": lambda: [quoted(body["executor_id"]), quoted(body["agent_id"])],
        "MESSAGE": lambda: [quoted(body["agent_id"]), quoted(body["executor_id"]), str(len(base64.b64decode(body["data"])))],
    }.get(kind, list)
    return f"{number} {' '.join([kind, *parts()])}\n".encode()
