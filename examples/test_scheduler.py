#!/usr/bin/env python3
"""usage: MESOSEV=./mesosev PYTHONPATH=lib examples/test_scheduler.py

Tests the scheduler of scheduler_loop.py with a test master. The environment variable MESOSEV, or
else the PATH, names the command mesosev.
"""
import unittest

import mesosev
from scheduler_loop import Scheduler, run, scalar

OFFER = {
    "id": {"value": "O1"},
    "framework_id": {"value": "F1"},
    "agent_id": {"value": "S1"},
    "hostname": "node-1.example",
    "resources": [scalar("cpus", 4), scalar("mem", 1024)],
}


def lost(name):
    """Returns the UPDATE of a lost task. It needs no acknowledgement, since it has no uuid."""
    status = {"task_id": {"value": name}, "state": "TASK_LOST"}
    return {"type": "UPDATE", "update": {"status": status}}


class SchedulerTest(unittest.TestCase):
    def start_master(self, *events):
        master = mesosev.Master(events, once=True).start()
        self.addCleanup(master.stop)
        return master

    def test_a_task_runs_on_an_offer(self):
        master = self.start_master({"type": "OFFERS", "offers": {"offers": [OFFER]}})
        self.assertTrue(run(Scheduler(master.address)))
        master.wait()
        self.assertEqual(master.lines.count("202 ACKNOWLEDGE"), 2)

    def test_it_gives_up_after_three_lost_tasks(self):
        master = self.start_master()
        scheduler = Scheduler(master.address)
        for name in ("T1", "T2", "T3"):
            master.send(lost(name))
        self.assertFalse(run(scheduler))
        master.wait()
        self.assertNotIn("202 ACKNOWLEDGE", master.lines)


if __name__ == "__main__":
    unittest.main()
