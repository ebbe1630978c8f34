"""tools/nightly runs each tool that the gate leaves out, and skips and names what the
machine lacks."""
import contextlib
import io
import pathlib
import sys
import tempfile
import unittest
import unittest.mock
from typing import Tuple

from tests import TOP
from tests.release import bare
from tests.test_gate import module
from tools import parts

nightly = module(TOP / "tools" / "nightly")
# compare two builds of the program; tests that the gate or night runs play the others
BY_HAND = {"bent_inputs", "bench_counts", "hall_in_browser", "site_in_browser"}


class Nightly(unittest.TestCase):
    def run_part(self, part: "nightly.Part") -> Tuple[object, str]:
        output = io.StringIO()
        with contextlib.redirect_stdout(output), unittest.mock.patch.multiple(
            parts, skip_reasons=[], failures=[]
        ):
            counts = nightly.counts_of(part, pathlib.Path("/bin/true"))
            nightly.conclude([counts], "")
        return counts, output.getvalue()

    def test_each_tool_is_run_by_the_gate_or_by_night(self) -> None:
        text = (TOP / "tools" / "gate").read_text()
        run = {word.rpartition(".")[2] for part in nightly.PARTS for word in part.words}
        tools = [
            path
            for path in (TOP / "tests").glob("*/*.py")
            if path.parent.name != "support"
        ]
        commands = [
            path for path in tools if '__name__ == "__main__"' in path.read_text()
        ]
        remaining = {
            command.stem
            for command in commands
            if command.stem not in run
            and f"tests.{command.parent.name}.{command.stem}" not in text
        }
        self.assertEqual(remaining, BY_HAND)

    def test_what_a_part_counts(self) -> None:
        counts, output = self.run_part(
            nightly.Part(
                "one", ("-c", "print('so'); print('2 passed, 1 failed'); exit(1)")
            )
        )
        self.assertEqual(counts, (2, 1))
        line = r"--- one, \d+ s: 2 passed, 1 failed\n"
        self.assertRegex(
            output, rf"--- one\nso\n{line}failed:\n{line}2 passed, 1 failed\n"
        )

    def test_the_last_lines_name_what_failed(self) -> None:
        output = (
            "FAIL: test_it (a.b.C.test_it)",
            "ERROR: it is no test",
            "FAILED (failures=1)",
            "FAILED a row",
            "ok: b",
        )
        _, message = self.run_part(
            nightly.Part("one", ("-c", f"print({chr(10).join(output)!r}); exit(1)"))
        )
        last = message.partition("failed:\n")[2].splitlines()
        self.assertEqual(
            (last[:2], last[3:]), ([output[0], output[3]], ["0 passed, 1 failed"])
        )

    def test_a_part_that_plays_nothing_fails(self) -> None:
        none = "print('0 passed, 0 failed')"
        for text, expectation in (
            ("", (0, 1)),
            (none, (0, 1)),
            (f"print('skipped: it: why'); {none}", (0, 0)),
        ):
            with self.subTest(text):
                self.assertEqual(
                    self.run_part(nightly.Part("one", ("-c", text)))[0], expectation
                )

    def test_a_part_that_lacks_something_is_skipped_and_named(self) -> None:
        with unittest.mock.patch.object(
            nightly.packages, "missing", lambda names: [*names][:1]
        ):
            counts, output = self.run_part(
                nightly.Part("one", ("-c", "exit(1)"), ("kits",))
            )
        self.assertEqual(
            (counts, output),
            (
                (0, 0),
                "1 skipped:\none: Debian's openjdk-17-jdk-headless is not installed\n"
                "0 passed, 0 failed\n",
            ),
        )


class Bare(unittest.TestCase):
    def test_what_failed_is_printed_though_many_lines_follow(self) -> None:
        top = pathlib.Path(self.enterContext(tempfile.TemporaryDirectory()))
        output = io.StringIO()
        with contextlib.redirect_stdout(output), unittest.mock.patch.multiple(
            bare, TOP=top, LOGS=top / "logs"
        ):
            text = "print('FAILED a row', *range(99), sep='\\n'); exit(1)"
            passes = bare.passes("a gate", [sys.executable, "-c", text])
        lines = output.getvalue().splitlines()
        self.assertEqual(
            (passes, lines[:2], lines[-3:]),
            (
                False,
                ["FAILED a row", str(99 - bare.LINES)],
                ["98", "all lines are in logs/a-gate.log", "FAILED: a gate"],
            ),
        )
        self.assertEqual(
            len((top / "logs" / "a-gate.log").read_text().splitlines()), 100
        )
