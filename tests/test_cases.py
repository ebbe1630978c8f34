"""A case of a command that dies is one that failed, and nothing waits in a way that
fails where many sockets are."""
import ast
import contextlib
import fcntl
import os
import resource
import unittest
from typing import Iterator

from arena_lab.support.waiting import is_ready
from tests import TOP
from tests.hostile.commands import Lab
from tests.support.cases import Cases, raise_descriptors
from tests.support.output import run_call
from tests.support.program_rows import fault_of

# a descriptor that select.select() does not take
HIGH = 2000


def dies(*_: object) -> None:
    raise KeyError("who dies")


class Dying(unittest.TestCase):
    def test_a_case_that_dies_is_one_failure_and_the_others_run(self) -> None:
        cases = Cases(2)
        cases.case("one dies")(dies)
        cases.case("another passes")(lambda program, folder: None)
        status, output, _ = run_call(cases.command, "usage", ["program"])
        self.assertEqual(status, 1)
        self.assertEqual(
            output,
            "FAILED: one dies: KeyError: 'who dies'\nok: another passes\n"
            "1 passed, 1 failed\n",
        )

    def test_a_row_that_dies_is_one_failure(self) -> None:
        self.assertEqual(fault_of("program", dies), "KeyError: 'who dies'")

    def test_a_part_that_dies_is_one_fault(self) -> None:
        lab = Lab.__new__(Lab)
        lab.faults = []
        lab.part(dies, lab)
        self.assertEqual(lab.faults, ["dies: KeyError: 'who dies'"])


class Waiting(unittest.TestCase):
    @contextlib.contextmanager
    def many(self) -> Iterator[None]:
        """Raises the limit on descriptors to its maximum."""
        before = resource.getrlimit(resource.RLIMIT_NOFILE)
        raise_descriptors()
        try:
            if resource.getrlimit(resource.RLIMIT_NOFILE)[0] <= HIGH + 1:
                self.skipTest("the system lets this process have few descriptors")
            yield
        finally:
            resource.setrlimit(resource.RLIMIT_NOFILE, before)

    def test_a_process_with_thousands_of_sockets_waits(self) -> None:
        with self.many():
            heard, output = os.pipe()
            high = fcntl.fcntl(heard, fcntl.F_DUPFD, HIGH)
            try:
                self.assertFalse(is_ready(high, 0))
                os.write(output, b"x")
                self.assertTrue(is_ready(high, 10))
            finally:
                for descriptor in (heard, output, high):
                    os.close(descriptor)

    def test_nothing_waits_by_select(self) -> None:
        tops = ("arena_lab", "tools", "bench", "examples", "tests")
        results = [
            f"{path.relative_to(TOP)}: {node.lineno}"
            for top in tops
            for path in sorted((TOP / top).rglob("*.py"))
            for node in ast.walk(ast.parse(path.read_text()))
            if isinstance(node, ast.Attribute)
            and node.attr == "select"
            and isinstance(node.value, ast.Name)
            and node.value.id == "select"
        ]
        self.assertEqual(results, [])
