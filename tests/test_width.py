"""No line of code or prose is wider than 120 characters, but for tables, pictures and
code in documents. Of Python this holds of what black leaves: strings and comments."""
import pathlib
import unittest
from typing import Iterator, List, Tuple

TOP = pathlib.Path(__file__).resolve().parents[1]
WIDTH = 120
FOLDERS = (
    "bench",
    "crates",
    "docs",
    "examples",
    "experiments",
    "arena_lab",
    "tests",
    "tools",
)
CODE = {".rt", ".antt", ".rs", ".py"}
# how lines of a document begin that cannot be broken
WHOLE = ("|", "![", "    ")


def files() -> List[pathlib.Path]:
    """The files of code and prose, but for what tools put into folders `out`, and
    libraries of others."""
    results = [
        *TOP.glob("*.md"),
        *(
            file
            for folder in FOLDERS
            for file in (TOP / folder).rglob("*")
            if file.is_file()
        ),
    ]
    return [
        file
        for file in results
        if file.suffix in CODE | {".md"}
        and not {"out", "vendor"} & {*file.relative_to(TOP).parts}
    ]


def lines_of(file: pathlib.Path) -> Iterator[Tuple[int, str]]:
    """Yields the lines of a file that could be wrapped, with their numbers."""
    is_fenced = False
    for number, line in enumerate(file.read_text().splitlines(), 1):
        is_fenced ^= file.suffix == ".md" and line.startswith("```")
        if file.suffix in CODE or not is_fenced and not line.startswith(WHOLE):
            yield number, line


class Width(unittest.TestCase):
    def test_lines_are_not_too_wide(self) -> None:
        chosen = files()
        self.assertGreater(len(chosen), 1000)
        results = [
            f"{file.relative_to(TOP)}:{number}"
            for file in chosen
            for number, line in lines_of(file)
            if len(line) > WIDTH
        ]
        self.assertEqual(results, [])
