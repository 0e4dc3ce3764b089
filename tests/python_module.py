#!/usr/bin/env python3
"""Runs the tests of lib/mesosev.py, lib/test_mesosev.py, with a built command.

A case is a test. Tests that need what is not installed are skipped, with a line for each reason. So
are those that need the C library, unless MESOSEV_LIBRARY names it: tests/c_library.py runs them.
"""
import collections
import io
import os
import sys
import unittest

sys.dont_write_bytecode = True
from support import TOP, Cases, parser


def tests_in(suite):
    """Yields the tests of a suite and of the suites in it."""
    for test in suite:
        if isinstance(test, unittest.TestSuite):
            yield from tests_in(test)
        else:
            yield test


def run(cases, chosen):
    """Runs these tests, and counts them."""
    report = io.StringIO()
    result = unittest.TextTestRunner(stream=report).run(unittest.TestSuite(chosen))
    # A test with subtests can fail several times.
    bad = {getattr(test, "test_case", test).id() for test, _ in result.failures + result.errors}
    bad |= {test.id() for test in result.unexpectedSuccesses}
    if bad:
        print(report.getvalue())
    skipped = collections.Counter(why for _, why in result.skipped)
    for why, count in skipped.items():
        cases.skip(f"lib/test_mesosev.py, number of tests {count}", why)
    cases.failed += len(bad)
    # Python 3.12.1 does not count skipped tests in `testsRun`.
    cases.passed += len(chosen) - len(bad) - sum(skipped.values())


def main():
    arguments = parser(__doc__, "tests/python_module.py $(tools/built checked) -k master", "program").parse_args()
    cases, program = Cases(arguments.word), os.path.abspath(arguments.program)
    if not os.access(program, os.X_OK):
        cases.count("the program", False, f": {program} cannot be run")
    os.environ["MESOSEV"] = program
    # A library that was built earlier may be older than the module.
    os.environ.setdefault("MESOSEV_LIBRARY", os.devnull)
    sys.path.insert(1, os.path.join(TOP, "lib"))
    import test_mesosev

    suite = unittest.defaultTestLoader.loadTestsFromModule(test_mesosev)
    run(cases, [test for test in tests_in(suite) if cases.is_chosen(test.id())])
    return cases.end()


if __name__ == "__main__":
    sys.exit(main())
