"""The documents name what is there: the functions and files of the traces, links, and
files."""
import pathlib
import re
import shutil
import subprocess
import unittest
from typing import Iterator, Tuple

from arena_lab.rules.model import replay_match
from tests import TOP
from tools.prove.prover import below, libraries_of

ARCHITECTURE = TOP / "docs" / "ARCHITECTURE.md"
TRACES = ("## One line of a client", "## A tournament, from its file")
ROW = re.compile(r"\| .*?\| (`[^|]+`) \| `(bhs_[\w/.]+)` \|")
LINK = re.compile(r"\]\(([^)#\s]+)\)")
# a path from the top of the repository that has an ending, or leads into tools/
PATH = re.compile(
    r"(?<![\w./])((?:bench|docs|examples|experiments|arena_lab|tests)/[\w/.-]*\.\w+|tools/[\w/.-]*\w)"
)
# what is made, not kept, and what the changelog says of the past
MADE = ("tests/out/", "CHANGELOG.md")
THEOREMS = "bhs_theorems_isolation"
NAMED = re.compile(rf"`{THEOREMS}::(\w+)::(\w+)`")
WORKER = re.compile(r"dask-worker\s+(\S+(?: \d)?)")
KIT = re.compile(r"rattle-kit-\w+(?: logic \w+)?")


def documents() -> Iterator[pathlib.Path]:
    for pattern in (
        "*.md",
        "docs/*.md",
        "arena_lab/*.md",
        "examples/*.md",
        "bench/*.md",
        "tools/*.md",
    ):
        yield from sorted(TOP.glob(pattern))


def traced_functions() -> Iterator[Tuple[str, str]]:
    """Yields each function of the traces with its source file."""
    text = ARCHITECTURE.read_text(encoding="utf-8")
    for head in TRACES:
        section = text.partition(head)[2].partition("\n## ")[0]
        for functions, file in ROW.findall(section):
            for name in re.findall(r"`(\w+)`", functions):
                yield name, file


class Traces(unittest.TestCase):
    def test_each_function_stands_in_its_file(self) -> None:
        functions = list(traced_functions())
        self.assertGreater(len(functions), 40)
        for name, file in functions:
            with self.subTest(name, file=file):
                self.assertRegex(
                    (TOP / "crates" / file).read_text(encoding="utf-8"),
                    rf"\bfn {name}\b",
                )


class Surface(unittest.TestCase):
    def test_what_became_of_a_name_is_there(self) -> None:
        rows = ARCHITECTURE.read_text(encoding="utf-8").partition(
            "\n## Names that have changed\n"
        )[2]
        results = [
            name
            for row in re.findall(r"^\| .*? \| (.*?) \|", rows, re.MULTILINE)
            for name in re.findall(r"`(bhs_\w+)::(?:\w+::)?(\w+)`", row)
        ]
        self.assertGreater(len(results), 12)
        for crate, name in results:
            with self.subTest(crate, name=name):
                text = "".join(
                    path.read_text(encoding="utf-8")
                    for path in (TOP / "crates" / crate / "src").rglob("*.rt")
                )
                self.assertRegex(
                    text, rf"\b(fn|struct|enum|trait|type) {name}\b|pub use .*::{name};"
                )


class Theorems(unittest.TestCase):
    def test_theorems_that_are_named_are_laws(self) -> None:
        names = {
            result
            for path in documents()
            for result in NAMED.findall(path.read_text(encoding="utf-8"))
        }
        self.assertGreater(len(names), 3)
        for module, name in sorted(names):
            with self.subTest(module, name=name):
                text = (TOP / "crates" / THEOREMS / "src" / f"{module}.rt").read_text(
                    encoding="utf-8"
                )
                self.assertRegex(text, rf"pub fn {name}\(\)\n(    ensures .*\n)+{{}}")

    def test_the_program_stands_on_them_and_one_crate_of_laws_does(self) -> None:
        libraries = libraries_of()
        self.assertEqual(
            [name for name in libraries if THEOREMS in below(libraries, name)],
            ["bhs_main", "bhs_theorems_contests"],
        )


class Crates(unittest.TestCase):
    def test_crates_that_are_named_are_there(self) -> None:
        results = {
            (path.name, name)
            for path in documents()
            if path.name not in MADE
            for name in re.findall(r"\bbhs_\w+", path.read_text(encoding="utf-8"))
        }
        self.assertGreater(len(results), 50)
        self.assertEqual(
            sorted(result for result in results if result[1] not in libraries_of()), []
        )


class Links(unittest.TestCase):
    def test_rows_of_a_table_have_equally_many_cells(self) -> None:
        for path in documents():
            text = path.read_text(encoding="utf-8").replace(r"\|", "")
            for rows in re.findall(r"(?:^\|.*\n)+", text, re.MULTILINE):
                lines = re.sub("`[^`\n]*`", "", rows).splitlines()
                self.assertEqual(len({line.count("|") for line in lines}), 1, rows)

    def test_links_lead_to_files(self) -> None:
        for path in documents():
            for target in LINK.findall(path.read_text(encoding="utf-8")):
                if "://" not in target:
                    with self.subTest(path.name, target=target):
                        self.assertTrue((path.parent / target).exists())

    def test_paths_name_files(self) -> None:
        for path in documents():
            if path.name in MADE:
                continue
            for result in PATH.findall(path.read_text(encoding="utf-8")):
                if not result.startswith(MADE):
                    with self.subTest(path.name, path=result):
                        self.assertTrue((TOP / result).exists())


class Replays(unittest.TestCase):
    def test_the_replay_of_the_formats_is_spelled_as_one(self) -> None:
        section = (
            (TOP / "docs" / "FORMATS.md")
            .read_text(encoding="utf-8")
            .partition("\n## Replays\n")[2]
        )
        lines = re.findall(
            r"^    (.*\n)", section.partition("\nIn the head")[0], re.MULTILINE
        )
        self.assertEqual(len(lines), 5)
        self.assertEqual(replay_match("".join(lines)).replay(), "".join(lines))


class Clusters(unittest.TestCase):
    def test_a_worker_that_the_lab_tells_to_start_plays_one_run_at_a_time(self) -> None:
        """Dask gives a worker a thread for each processor unless it is told otherwise."""
        folder = TOP / "arena_lab"
        paths = [
            path for ending in ("md", "py") for path in folder.rglob(f"*.{ending}")
        ]
        texts = [path.read_text(encoding="utf-8") for path in paths]
        words = [option for text in texts for option in WORKER.findall(text)]
        self.assertGreater(len(words), 3)
        self.assertEqual(set(words), {"--nthreads 1"})


class Toolchain(unittest.TestCase):
    @unittest.skipUnless(shutil.which("rt"), "no rt")
    def test_a_kit_that_is_named_is_the_one_that_is_installed(self) -> None:
        output = subprocess.run(
            ["rt", "version"], stdout=subprocess.PIPE, text=True, check=True
        ).stdout
        for path in documents():
            for names in KIT.findall(path.read_text(encoding="utf-8")):
                with self.subTest(path.name):
                    self.assertIn(names, output)
