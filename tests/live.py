#!/usr/bin/env python3
"""Runs the subcommand `master` of a built mesosev, the live test master, with the clients of the tests and with real ones.

A case is named by a sentence. If the case fails, the sentence is printed with what was expected and what was received. Each
case starts masters of its own on free ports of 127.0.0.1. Most of the time a case waits, so --together of them run at once.
A case that fails is tried again alone, since events can be late on a busy machine.
The cases are in the folder live: the rules of streams, tasks and offers, connections, limits, inputs and outputs, and
clients. The case of a real client is skipped if that client is not installed.
"""
import importlib
import os
import signal
import sys
from concurrent.futures import ThreadPoolExecutor

sys.dont_write_bytecode = True  # Nothing is left beside the scripts.
sys.path.insert(1, os.path.join(os.path.dirname(os.path.abspath(__file__)), "live"))
from runs import CASES, Run, Skipped
from support import Cases, parser

# The modules with the cases, those that take longest first.
MODULES = ["at_random", "memory", "with_clients", "limits", "sockets", "rules_streams", "rules_tasks", "rules_offers", "faults", "planned", "pages", "inputs"]


class Tests(Cases):
    def report(self, sentence, run):
        """Counts a case by its outcome. `run` returns why it failed, or none. Returns whether it passed or was skipped."""
        try:
            why = run()
        except Skipped as error:
            self.skip(sentence, error)
            return True
        if why is None:
            self.count(sentence, True, "")
            return True
        print(f"tried again alone: {sentence}: {why}")
        return False


def main():
    arguments = parser(__doc__, "tests/live.py $(tools/built checked) -k offer", "program", together=8).parse_args()
    # A shell starts a command in the background with this signal ignored, and masters would inherit that.
    signal.signal(signal.SIGINT, signal.default_int_handler)
    tests, program = Tests(arguments.word), os.path.abspath(arguments.program)
    for name in MODULES:
        importlib.import_module(name)
    with ThreadPoolExecutor(arguments.together) as pool:
        chosen = [sentence for sentence in CASES if tests.is_chosen(sentence)]
        begun = [(sentence, pool.submit(Run(program).try_case, CASES[sentence])) for sentence in chosen]
        late = [sentence for sentence, running in begun if not tests.report(sentence, running.result)]
    for sentence in late:
        why = Run(program).try_case(CASES[sentence])
        tests.count(sentence, why is None, f": {why}")
    return tests.end()


if __name__ == "__main__":
    sys.exit(main())
