"""Python is laid out by black, has no fault that flake8 finds (.flake8), and assigns
one value a statement."""
import ast
import pathlib
import subprocess
import unittest
from typing import Iterator, List, Set

from tests import TOP, needs
from tests.support.output import InTemporary, write
from tools.size import programs, texts

IGNORED = TOP / ".git-blame-ignore-revs"
FAULTS = """import os
from typing import Any


def one(a: Any) -> None:
    unused = a


def one(b: Any) -> None:
    return absent
"""


def command_lines(*words: object) -> List[str]:
    """The lines that a command prints."""
    result = subprocess.run(
        [*map(str, words)],
        cwd=TOP,
        text=True,
        stdout=subprocess.PIPE,
        stderr=subprocess.STDOUT,
    )
    return result.stdout.splitlines()


def black_changes(*paths: pathlib.Path) -> List[str]:
    """What black says of the files that it would lay out otherwise, or cannot read."""
    return [
        line
        for line in command_lines("black", "--check", *paths)
        if line.startswith(("would ", "error: "))
    ]


def names(node: ast.AST) -> Set[str]:
    return {node.id for node in ast.walk(node) if isinstance(node, ast.Name)}


def unpaired_assignments(text: str) -> Iterator[str]:
    """Assignments of several values to several names of which no value names any: they
    are no pair."""
    for node in ast.walk(ast.parse(text)):
        if isinstance(node, ast.Assign) and isinstance(node.value, ast.Tuple):
            target = node.targets[0]
            if isinstance(target, ast.Tuple) and not names(target) & names(node.value):
                yield f"line {node.lineno}: {ast.unparse(node)}"


class Layout(InTemporary):
    @needs("black", "black")
    def test_black_would_change_nothing(self) -> None:
        self.assertEqual(black_changes(*programs()), [])

    @needs("black", "black")
    def test_what_black_would_change_is_named(self) -> None:
        path = write(self.folder / "wide.py", "a = ( 1,2 )\n")
        self.assertEqual(black_changes(path), [f"would reformat {path}"])

    def test_a_statement_assigns_one_value(self) -> None:
        for path, text in texts(programs()):
            with self.subTest(str(path.relative_to(TOP))):
                self.assertEqual([*unpaired_assignments(text)], [])
        self.assertEqual([*unpaired_assignments("a, b = b, a\n")], [])
        self.assertEqual(
            [*unpaired_assignments("a, b = 1, c\n")], ["line 1: a, b = (1, c)"]
        )


@needs("git", "git")
class History(unittest.TestCase):
    def setUp(self) -> None:
        lines = IGNORED.read_text(encoding="utf-8").splitlines()
        self.ignored = [line for line in lines if line and not line.startswith("#")]
        self.assertGreater(len(self.ignored), 0)
        if command_lines("git", "rev-parse", "--is-shallow-repository") != ["false"]:
            self.skipTest("this is no clone with its history")

    def test_commits_that_blame_leaves_out_are_of_this_history(self) -> None:
        for commit in self.ignored:
            with self.subTest(commit):
                self.assertEqual(
                    command_lines("git", "merge-base", commit, "HEAD"), [commit]
                )

    def test_each_subject_since_then_names_an_area(self) -> None:
        for subject in command_lines(
            "git", "log", "--format=%s", f"{self.ignored[0]}..HEAD"
        ):
            with self.subTest(subject):
                self.assertRegex(subject, r"^[\w.-]+: \S")
                self.assertLessEqual(len(subject), 72)


@needs("flake8", "flake8")
class Faults(InTemporary):
    def test_the_tree_has_none(self) -> None:
        paths = programs()
        self.assertGreater(len(paths), 400)
        self.assertEqual(command_lines("flake8", *paths), [])

    def test_a_name_that_is_unused_undefined_or_defined_twice_is_found(self) -> None:
        write(self.folder / "faults.py", FAULTS)
        result = command_lines(
            "flake8", "--config", TOP / ".flake8", self.folder / "faults.py"
        )
        self.assertEqual(
            [line.split()[1] for line in result], ["F401", "F841", "F811", "F821"]
        )
