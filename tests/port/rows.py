"""Plays the rows of tests/program on the program that rustc compiled: they must give the
same bytes as the proved program.

    /usr/bin/python3 -m tests.port.rows [--only TEXT]
    /usr/bin/python3 -m tests.port.rows --native

It is the WebAssembly module, under node: rows that run a command which a page lacks are
left out, and their number is told. With --native it is the program of a machine, and
that of the player of modules: the cases of tests/program are played too. The last line
reads `N passed, M failed`, and the exit status is 1 if one failed.
"""
import argparse
import concurrent.futures
import os
import pathlib
import sys
import tempfile
from typing import List, Tuple

from arena_lab.support.built import PLAYER
from tests.program import player_cases
from tests.runners.program_tests import ROWS, Test, cases, found_by, tests_of, try_all
from tests.support.counts import report_counts
from tests.support.program_rows import Row
from tools.port import module, native

HERE = pathlib.Path(__file__).resolve().parent
# commands for which a page has no sockets and no locks of files
LACKS = ("serve", "recover")


def is_lacking(row: Row) -> bool:
    """Whether a row runs a contest on sockets, or recovers one by its tournament."""
    steps = [step for step in row.steps if step.mark == "$"]
    return any(is_lacking_command(step.rest.split(), step.status) for step in steps)


def is_lacking_command(words: List[str], status: int) -> bool:
    """Whether a page refuses words that the program carries out. Words that the command
    line refuses, by status 2, and help are the same."""
    is_help = "--help" in words or "-h" in words
    if is_help or status == 2 or not words or words[0] not in LACKS:
        return False
    return words[0] == "serve" or any(word.startswith("--replay") for word in words)


def rows(only: str = "") -> Tuple[List[Test], int]:
    """The rows that a page plays, and how many it leaves out."""
    every = [test for test in tests_of(ROWS) if only in test.location]
    tests = [test for test in every if not is_lacking(test.trial.args[0])]
    return tests, len(every) - len(tests)


def failures(program: str, tests: List[Test]) -> List[str]:
    """A line for each row that comes out otherwise."""
    with concurrent.futures.ThreadPoolExecutor(os.cpu_count()) as pool:
        faults = pool.map(lambda test: found_by(program, test.trial), tests)
        return [
            f"FAILED {test.location}: {test.title}: {fault}"
            for test, fault in zip(tests, faults)
            if fault
        ]


def under_node(wasm: pathlib.Path, folder: pathlib.Path) -> str:
    """A script that runs a module under node as a program."""
    text = f'#!/bin/sh\nexec node "{HERE / "run_module.js"}" "{wasm}" "$@"\n'
    script = folder / "arena"
    script.write_text(text)
    script.chmod(0o755)
    return str(script)


def play_native() -> int:
    """Plays rows and cases on the programs of a machine, and returns how many fail."""
    player_cases.PLAYER = native.compiled_program(PLAYER)
    return try_all(str(native.compiled_program()), [*tests_of(ROWS), *cases()])


def main() -> int:
    parser = argparse.ArgumentParser(
        "python3 -m tests.port.rows",
        description=__doc__,
        formatter_class=argparse.RawDescriptionHelpFormatter,
    )
    parser.add_argument(
        "--native", action="store_true", help="the program of a machine"
    )
    parser.add_argument("--only", metavar="TEXT", default="", help="of these files")
    parser.add_argument(
        "--again",
        action="store_true",
        help="compile the module once more, elsewhere: it must have the same bytes",
    )
    args = parser.parse_args()
    if args.native:
        return 1 if play_native() else 0
    tests, omissions = rows(args.only)
    with tempfile.TemporaryDirectory(prefix="rows-") as name:
        program = under_node(module.module(), pathlib.Path(name))
        lines = failures(program, tests)
        if args.again:
            again = module.module(pathlib.Path(name) / "again")
            if again.read_bytes() != module.module().read_bytes():
                lines.append("FAILED two compilations of the module have other bytes")
    print(*lines, sep="\n", end="\n" * len(lines))
    print(f"{omissions} rows run commands that a page lacks")
    return 1 if report_counts(len(tests) - len(lines), len(lines)) else 0


if __name__ == "__main__":
    sys.exit(main())
