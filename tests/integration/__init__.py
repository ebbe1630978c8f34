"""Tests of the lab on the built program, with Debian's packages:
`tests/runners/integration_tests.py PROGRAM` runs them, and `python3 -m unittest` does
not."""
import unittest


def load_tests(
    _loader: unittest.TestLoader, tests: unittest.TestSuite, _pattern: str
) -> unittest.TestSuite:
    """What `python3 -m unittest` finds below this folder: nothing."""
    return tests
