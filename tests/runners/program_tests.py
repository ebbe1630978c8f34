"""Plays the program: the rows of text of tests/program, and cases that are made by
rules.

    python3 -m tests.runners.program_tests PROGRAM [FOLDER]

PROGRAM is the built program. With a folder only the rows of its files are played: those
of tests/benchmark go with the benchmark. program_rows.py says how rows are read and
played; the other cases are in program_cases.py and in the FILES below. Each row and
each case is played in a fresh temporary folder; nothing in the repository is
overwritten. For each that fails a line names the file and the title, what was wanted
and what came. The last line reads `N passed, M failed`, and the exit status is 1 if one
failed.
"""
import concurrent.futures
import functools
import importlib
import pathlib
import sys
import unittest
from typing import Iterator, NamedTuple, Sequence, Union

from tests.program.program_cases import CASES, Trial
from tests.support.counts import SKIPPED, report_counts
from tests.support.program_rows import fault_of, play, rows_of

# each adds its cases to CASES
FILES = (
    "attest_cases",
    "contest_cases",
    "contest_files",
    "example_cases",
    "exploring_cases",
    "interactive_cases",
    "longest_texts",
    "module_cases",
    "module_texts",
    "output_cases",
    "player_cases",
    "program_contests",
    "program_rehearsals",
    "refused_modules",
    "replay_cases",
    "serving_cases",
    "traced_files",
)
for name in FILES:
    importlib.import_module(f"tests.program.{name}")
ROWS = pathlib.Path(__file__).resolve().parents[2] / "tests" / "program"
WORKERS = 4


class Test(NamedTuple):
    """A test: location, title and function."""

    location: str
    title: str
    trial: Trial


def tests_of(folder: pathlib.Path) -> Iterator[Test]:
    """The rows of the files of a folder."""
    for path in sorted(folder.glob("*.rows")):
        try:
            rows = rows_of(path.read_text(encoding="utf-8"))
        except ValueError as error:
            sys.exit(f"{path}: {error}")
        for row in rows:
            yield Test(path.name, row.title, functools.partial(play, row))


def cases() -> Iterator[Test]:
    for title, trial in CASES.items():
        yield Test("program_cases.py", title, trial)


def found_by(program: str, trial: Trial) -> Union[str, unittest.SkipTest]:
    """What a trial finds wrong, if anything, or why it is skipped."""
    try:
        return fault_of(program, trial)
    except unittest.SkipTest as why:
        return why


def try_all(program: str, tests: Sequence[Test]) -> int:
    """Tries the program, prints what failed and how many did, and gives that number."""
    with concurrent.futures.ThreadPoolExecutor(WORKERS) as pool:
        results = list(pool.map(lambda test: found_by(program, test.trial), tests))
    skipped_value = [isinstance(result, unittest.SkipTest) for result in results]
    for test, it, is_skipped in zip(tests, results, skipped_value):
        if is_skipped or it:
            print(
                f"{SKIPPED if is_skipped else 'FAILED '}{test.location}: {test.title}: {it}"
            )
    failures = sum(map(bool, results)) - sum(skipped_value)
    report_counts(len(results) - failures - sum(skipped_value), failures)
    return failures


def main() -> int:
    if len(sys.argv) not in (2, 3) or sys.argv[1] in ("-h", "--help"):
        sys.exit(__doc__.strip())
    program, *folders = sys.argv[1:]
    tests = (
        tests_of(pathlib.Path(folders[0])) if folders else (*tests_of(ROWS), *cases())
    )
    return 1 if try_all(program, list(tests)) else 0


if __name__ == "__main__":
    sys.exit(main())
