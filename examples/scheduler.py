#!/usr/bin/env python3
"""usage: examples/scheduler.py HOST:PORT [SECONDS]: launches a task on the first offer, and ends once the task runs.

A proved session checks each call before it is sent. After a break, a refused call, or SECONDS without an event (by
default 60), the scheduler subscribes again. It survives all faults of examples/chaos. Needs libmesosev.
"""
import sys
import time

import mesosev

LOST = ("TASK_LOST", "TASK_ERROR", "TASK_FAILED", "TASK_DROPPED", "TASK_GONE")


def scalar(name, value):
    return {"name": name, "type": "SCALAR", "scalar": {"value": value}}


def task_on(offer, name):
    resources = [scalar("cpus", 0.5), scalar("mem", 128)]
    return {"name": name, "task_id": {"value": name}, "agent_id": offer["agent_id"], "resources": resources, "command": {"value": "sleep 100"}}


def run(address, seconds=60):
    """Runs the scheduler until its task runs."""
    session, master, tasks = mesosev.Session(), None, {}
    while True:
        try:
            if master:
                master.reconnect()
            master = master or mesosev.connect(address, {"user": "root", "name": "proved"}, timeout=float(seconds), session=session)
            for event in master:
                if event.name == "OFFERS":
                    for name, offer in [*session.offers.items()]:
                        if any(state not in LOST for state in tasks.values()):
                            master.post(session.decline([name]))
                            continue
                        # A task that is launched again needs another id.
                        task = f"t{len(tasks)}"
                        master.post(session.accept([name], [task_on(offer, task)]))
                        tasks[task] = "TASK_STAGING"
                elif event.name == "UPDATE":
                    status = event.value()["update"]["status"]
                    tasks[status["task_id"]["value"]] = status["state"]
                    print(status["state"], flush=True)
                    for call in session.acknowledge_all():
                        master.post(call)
                if "TASK_RUNNING" in tasks.values():
                    return master.post(session.teardown())
        except (mesosev.CallRefused, OSError) as error:
            print(f"subscribes again: {error}", file=sys.stderr)
        time.sleep(0.5)


if __name__ == "__main__":
    run(*sys.argv[1:])
