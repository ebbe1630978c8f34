"""Runs the tests of the libraries, the Rust files of tests/library, and passes their
lines on.

    python3 -m tests.runners.library_tests [--prove | --format | PROGRAM]

They are compiled together with all crates that they use, into a program that stops at
an index out of bounds, an overflow, a failed unwrap or a bad access. Neither they nor
the crates are proved for it, so this takes two or three minutes. PROGRAM, the name of a
file, is where that program is left, in such a form that tests/hostile/refusals.py can
refuse its requests for memory; this needs gcc. With --prove the tests are proved too:
that they stop nowhere, and that each call meets its contract's premises. That takes an
hour or more, and the gate leaves it out. With --format the files are formatted, and
nothing is run.

The last line reads `N passed, M failed`.
"""
import os
import pathlib
import re
import shutil
import subprocess
import sys
import tempfile
from typing import Iterator, List, Tuple

from tests.support.counts import report_counts
from tools.prove.prover import (
    CRATES,
    KIT,
    PARTS,
    TOP,
    Libraries,
    libraries_of,
    words_to_try,
)

TESTS = TOP / "tests" / "library"
NAME = "library_tests"
SHIM = TOP / "tests" / "hostile" / "refusals_shim.c"
# seconds for the one program that contains all tests
SECONDS = 600
USED = re.compile(r"^\s*use (\w+)::", re.M)
RESULT = re.compile(r"test result: \w+\. (\d+) passed; (\d+) failed")


def files() -> Iterator[Tuple[pathlib.Path, pathlib.Path]]:
    """Yields each test file with its path in the generated crate."""
    for path in sorted(TESTS.rglob("*.rs")):
        yield path, pathlib.Path("src") / path.relative_to(TESTS).with_suffix(".rt")


def make(folder: pathlib.Path) -> Libraries:
    """Makes a crate of the tests in a folder, and gives what each crate stands on, this
    one too."""
    libraries = libraries_of()
    texts = []
    for path, position in files():
        (folder / position).parent.mkdir(parents=True, exist_ok=True)
        shutil.copy(path, folder / position)
        texts.append(path.read_text())
    usage = {name for text in texts for name in USED.findall(text)} & set(libraries)
    return {**libraries, NAME: sorted(usage)}


def make_beside_all(room: pathlib.Path) -> pathlib.Path:
    """Copies all crates and a test crate to a folder; returns the test crate's
    folder."""
    folder = room / "crates" / NAME
    libraries = make(folder)
    for name in libraries_of():
        for part in PARTS:
            if (CRATES / name / part).is_dir():
                shutil.copytree(CRATES / name / part, room / "crates" / name / part)
    line = f"{NAME}: {' '.join(libraries[NAME])}\n"
    (room / "crates.txt").write_text((TOP / "crates.txt").read_text() + line)
    shutil.copy(TOP / "HANDLES", room)
    return folder


def refusing(room: pathlib.Path, path: pathlib.Path) -> pathlib.Path:
    """What is linked to the program so that it can be refused memory, and leaves itself
    in a file."""
    new_path = room / "refusing.o"
    subprocess.run(
        [
            "gcc",
            "-r",
            "-nostdlib",
            "-fPIC",
            "-O2",
            f'-DKEPT="{path}"',
            "-Wl,--wrap=malloc,--wrap=realloc",
            "-o",
            new_path,
            SHIM,
            "-Wl,--whole-archive",
            KIT / "c" / "liblibc_c.a",
        ],
        check=True,
    )
    return new_path


def run(words: List[str], folder: pathlib.Path) -> Tuple[int, int]:
    """Runs a command on the crate of the tests, and gives how many passed and how many
    failed."""
    pass_count = 0
    failure_count = 0
    with subprocess.Popen(
        words,
        cwd=folder,
        stdin=subprocess.DEVNULL,
        stdout=subprocess.PIPE,
        stderr=subprocess.STDOUT,
        text=True,
        errors="replace",
        env={**os.environ, "TMPDIR": str(folder)},
    ) as child:
        for line in child.stdout:
            print(line, end="", flush=True)
            result = RESULT.match(line)
            if result:
                pass_count = int(result[1])
                failure_count = int(result[2])
    return pass_count, max(failure_count, int(child.returncode != 0 or not pass_count))


def run_unproved(room: pathlib.Path, program: str) -> Tuple[int, int]:
    """Compiles and runs the tests, leaves the program in a file if one is named, and
    counts."""
    folder = room / NAME
    libraries = make(folder)
    kept_folder = room / "kept"
    linked_value = []
    if program:
        pathlib.Path(program).unlink(missing_ok=True)
        linked_value.append(refusing(room, kept_folder))
    counts = run(words_to_try(libraries, NAME, SECONDS, linked_value), folder)
    if kept_folder.exists():
        pathlib.Path(program).parent.mkdir(parents=True, exist_ok=True)
        shutil.move(kept_folder, program)
    return counts


def main(words: List[str]) -> int:
    program = words[0] if len(words) == 1 and not words[0].startswith("-") else ""
    if words not in ([], ["--prove"], ["--format"], [program]):
        print(__doc__.strip())
        return 0 if words in (["-h"], ["--help"]) else 2
    with tempfile.TemporaryDirectory(prefix="library-tests-") as name:
        room = pathlib.Path(name)
        if words == ["--format"]:
            folder = make_beside_all(room)
            status = subprocess.run([KIT / "bin" / "rt", "fmt"], cwd=folder).returncode
            for path, position in files():
                shutil.copy(folder / position, path)
            return status
        if words == ["--prove"]:
            counts = run([str(KIT / "bin" / "rt"), "test"], make_beside_all(room))
        else:
            counts = run_unproved(room, program)
    return report_counts(*counts)


if __name__ == "__main__":
    sys.exit(main(sys.argv[1:]))
