"""Runs tests in Python as `python3 -m unittest` does, and says which were skipped.

    python3 -m tests.runners.python_tests [MODULE ..]

Without modules it runs all tests that need no program. A line `skipped: TEST: WHY`
tells each that was skipped. The last line reads `N passed, M failed`, in which the
skipped do not count; the exit status is 1 if one failed, or if none was run or skipped.
"""
import sys
import unittest
from typing import List

from tests.support.counts import SKIPPED


def main(names: List[str]) -> int:
    if names in (["-h"], ["--help"]):
        print((__doc__ or "").strip())
        return 0
    loader = unittest.defaultTestLoader
    tests = loader.loadTestsFromNames(names) if names else loader.discover(".")
    result = unittest.TextTestRunner(stream=sys.stdout).run(tests)
    for test, why in result.skipped:
        print(f"{SKIPPED}{test.id()}: {why}")
    failures = (
        len(result.failures) + len(result.errors) + len(result.unexpectedSuccesses)
    )
    print(
        f"{max(0, result.testsRun - len(result.skipped) - failures)} passed, {failures} failed",
        flush=True,
    )
    return 1 if failures or not (result.testsRun or result.skipped) else 0


if __name__ == "__main__":
    sys.exit(main(sys.argv[1:]))
