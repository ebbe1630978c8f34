"""CONTRIBUTING.md names each file that has to say something of a new command, option,
column or scheduler: those that name one which is there."""
import re
import unittest
from typing import Iterator, List, NamedTuple, Set

from tests import TOP

PATH = re.compile(r"`([\w./-]+)`")
KEPT = ("crates/", "docs/", "arena_lab/", "tests/", "tools/", "examples/")
CRATES = ("crates/*/src/**/*.rt", "crates/*/specs/**/*.antt")
OWN = ("arena_lab/**/*.py",)
ROWS = ("tests/program/*.rows",)


class Example(NamedTuple):
    """A pattern and the files to search."""

    pattern: str
    globs: List[str]


# by the second column of the table
EXAMPLES = {
    "`recover`": Example(
        r"\b[Rr]ecover(ed)?\b|print_recovered",
        [*CRATES, *ROWS, "tests/hostile/commands.py"],
    ),
    "`--gather`": Example(r"\bgather\b", [*CRATES, *ROWS, "arena_lab/commands/*.py"]),
    "`lost`": Example(
        r"\blost\b",
        [
            "crates/bhs_standings/s*/**/*.*t",
            "arena_lab/play/server.py",
            "arena_lab/pages/[st]*.py",
        ],
    ),
    "`events`": Example(r'"events"', ["arena_lab/play/*.py", "arena_lab/sweep/*.py"]),
    "`serve`": Example(
        r"commands\.serve|arena-lab serve",
        [*OWN, "*.md", "docs/*.md", "arena_lab/*.md"],
    ),
    "`slow-links`": Example(r"slow-links|SlowLinks", [*CRATES, *ROWS, *OWN]),
}


def section(head: str) -> str:
    """What the page says under a head."""
    text = (TOP / "CONTRIBUTING.md").read_text(encoding="utf-8")
    return text.partition(f"\n## {head}\n")[2].partition("\n## ")[0]


def files_with(pattern: str, globs: List[str]) -> Iterator[str]:
    """The files in which the pattern stands."""
    for glob in globs:
        for path in sorted(TOP.glob(glob)):
            name = str(path.relative_to(TOP))
            if re.search(pattern, path.read_text(encoding="utf-8")):
                yield name


def files_in(text: str) -> Set[str]:
    """The files that a text names."""
    return {
        name for name in PATH.findall(text) if "/" in name and name.startswith(KEPT)
    }


class Map(unittest.TestCase):
    def test_each_file_that_names_a_command_of_agents_is_on_the_map(self) -> None:
        names = files_in(section("To add a rule of the model"))
        results = list(files_with(r"\bAccuse\b", list(CRATES)))
        self.assertGreater(len(results), 20)
        self.assertEqual([file for file in results if file not in names], [])

    def test_each_file_that_names_an_example_is_in_its_row(self) -> None:
        rows = [
            row.split(" | ")
            for row in section("To add something else").splitlines()
            if row.startswith("| ")
        ][1:]
        self.assertEqual([row[1] for row in rows], list(EXAMPLES))
        for _, like, files in rows:
            with self.subTest(like):
                results = set(files_with(*EXAMPLES[like]))
                self.assertGreater(len(results), 1)
                self.assertEqual(sorted(results - files_in(files)), [])

    def test_what_is_on_the_map_is_there(self) -> None:
        for head in ("To add a rule of the model", "To add something else"):
            for name in files_in(section(head)):
                with self.subTest(name):
                    self.assertTrue((TOP / name).exists())
