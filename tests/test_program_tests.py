"""The rows that play the program: how they are read, and that a row that fails is
told."""
import sys
import unittest
import unittest.mock
from typing import List

from tests.program import program_cases
from tests.runners import program_tests
from tests.support.output import InTemporary, run_call, write
from tests.support.program_rows import Step, fault_of, play, rows_of

# prints its script, or tells its words and fails
PROGRAM = f"""#!{sys.executable}
import sys
if len(sys.argv) > 1 and sys.argv[1] == "print":
    sys.stdout.write(sys.stdin.read())
elif sys.argv[1:] == ["check", "cup.toml"]:
    text = open("cup.toml").read()
    good = "right" in text
    (sys.stdout if good else sys.stderr).write(text)
    sys.exit(0 if good else 6 if "read" in text else 3)
else:
    sys.stderr.write("|".join(sys.argv[1:]) + chr(10))
    sys.exit(4)
"""

RIGHT = """# What it shows.

Before each row a file is written.
@ first
> one

The file stands there.
= first
< one

Words are quoted, and what is printed is kept.
$ print
> a
>~ b¶
+ c
>x 0a
< a
< b
< c
% kept
= kept
<~ a¶b¶c¶
/ folder
@ folder/in
= folder/in
$ tell 'a b' "" c=d
! tell|a b||c=d
? 4
"""


class Played(InTemporary):
    def setUp(self) -> None:
        super().setUp()
        self.program = write(self.folder / "program", PROGRAM, 0o755)

    def faults(self, text: str) -> List[str]:
        return [
            fault_of(str(self.program), lambda stage, row=row: play(row, stage))
            for row in rows_of(text)
        ]

    def test_right_rows_pass(self) -> None:
        self.assertEqual(self.faults(RIGHT), ["", ""])

    def test_wrong_rows_are_told(self) -> None:
        for old, new, fault in (
            (
                "= first\n< one",
                "= first\n< two",
                "= first: it, line 1: wanted `two¶`, came `one¶`",
            ),
            (
                "< b\n< c",
                "< b\n< d",
                "$ print: printed, line 3: wanted `d¶`, came `c¶`",
            ),
            ("< b\n< c", "< b", "$ print: printed, line 3: wanted nothing, came `c¶`"),
            (
                "tell|a",
                "tell|b",
                "$ tell 'a b' \"\" c=d: told, line 1: wanted `tell|b b||c=d¶`, came `tell|a b||c=d¶`",
            ),
            ("? 4", "? 3", "$ tell 'a b' \"\" c=d: exit status: wanted 3, came 4"),
        ):
            self.assertIn(old, RIGHT)
            self.assertEqual(
                [fault for fault in self.faults(RIGHT.replace(old, new)) if fault],
                [fault],
            )

    def test_a_program_that_is_not_there_is_told(self) -> None:
        self.assertIn(
            "No such file",
            fault_of(str(self.folder / "none"), lambda stage: stage.run([])),
        )

    def test_a_missing_file_is_told(self) -> None:
        self.assertIn("No such file", self.faults("None is there.\n= none\n< one\n")[0])

    def test_failures_are_printed_and_counted(self) -> None:
        (self.folder / "some.rows").write_text(RIGHT.replace("? 4", "? 3"))
        failures, output, _ = run_call(
            program_tests.try_all,
            str(self.program),
            [*program_tests.tests_of(self.folder)],
        )
        lines = output.splitlines()
        self.assertEqual((failures, lines[-1]), (1, "1 passed, 1 failed"))
        self.assertTrue(
            lines[0].startswith(
                "FAILED some.rows: Words are quoted, and what is printed is kept.: $ tell"
            )
        )

    def test_changes_are_tried_one_by_one(self) -> None:
        first = "Before each row.\n@ old\n> match x¶last\n\n"
        table = """Changes:
~ old cup.toml
x => right => match right¶last
match x¶last => bad¶  what helps => bad
¶last =>  => {}
"""
        self.assertEqual(self.faults(first + table.format("match x"))[:2], ["", ""])
        self.assertEqual(
            len(
                [
                    fault
                    for fault in self.faults(first + table.format("another"))
                    if fault
                ]
            ),
            1,
        )
        self.assertRaises(
            ValueError, rows_of, first + "Changes:\n~ old cup.toml\nnone => y => z\n"
        )


class Read(unittest.TestCase):
    def test_a_table_makes_rows(self) -> None:
        text = "Play WHAT\n$ WHAT\n> TEXT\n* TEXT\n| a\n|  b=WHAT\n* WHAT => MORE\n| x => 1\n| y TEXT => 2\n"
        self.assertEqual(
            [
                (row.title, row.steps[0].rest, row.steps[0].stdin)
                for row in rows_of(text)
            ],
            [
                ("Play x", "x", b"a\n"),
                ("Play y a", "y a", b"a\n"),
                ("Play x", "x", b" b=WHAT\n"),
                ("Play y  b=WHAT", "y  b=WHAT", b" b=WHAT\n"),
            ],
        )

    def test_steps_have_all_that_is_said(self) -> None:
        (row,) = rows_of("One.\n$ a b\n>\n> # x\n<~ y\n! z\n? 7\n")
        self.assertEqual(row.steps, [Step("$", "a b", b"\n# x\n", b"y", b"z\n", 7)])

    def test_what_is_no_row_is_refused(self) -> None:
        for text in (
            "One.\n> a\n",
            "One.\n$ a\nb\n",
            "One.\n$ a\n* A => B\n| a\n",
            "One.\n$ a\n? x\n",
        ):
            self.assertRaises(ValueError, rows_of, text)

    def test_all_files_have_rows(self) -> None:
        tests = [*program_tests.tests_of(program_tests.ROWS)]
        self.assertGreater(len(tests), 250)
        self.assertEqual(
            len({(test.location, test.title) for test in tests}), len(tests)
        )
        self.assertNotIn(None, program_cases.CASES.values())
