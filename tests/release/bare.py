"""Runs the Python part of the gate in a bare Debian, which has python3 and no other
package.

    sudo python3 -m tests.release.bare [--root FOLDER] [--program PATH]

Makes a root by `debootstrap`, or copies the root in FOLDER. Clones the commit of this
repository into it, adds the programs that are built here, and binds the toolchain in. A
program at PATH takes the place of the proved one. In the root it runs

- `python3 -m unittest`, without a package;
- `tools/gate --played` where apt-get reaches no archive: all tests that need a package
  must be skipped;
- `tools/gate --played` again, which installs the packages, and skips few;
- the lab's tests as in a container, where programs of teams have no walls.

In each no test may fail. It prints which failed, the last lines of each, and the file
in out/bare that has all lines. It needs root and a network. The last line reads `N
passed, M failed`, and the exit status is 1 if one failed.
"""
import argparse
import pathlib
import shutil
import subprocess
import sys
from typing import List

from tests.support import roots
from tests.support.counts import report_counts
from tools.parts import FAILURE
from tools.prove.prover import KIT, TOP
from tools.prove.record import PROGRAMS

# the repository's path in the root, and untracked files to copy
HOME = "home/arena"
BUILT = (*(f"crates/{name}/out" for name in (*PROGRAMS, "bhs_bench")), "tests/out")
PROGRAM = "crates/bhs_main/out/bhs_main"
# where apt-get finds archives, what keeps all that a command prints, and how many last
# lines are shown
SOURCES = "etc/apt/sources.list"
LOGS = TOP / "out" / "bare"
LINES = 60


def clone(path: pathlib.Path, program: str) -> None:
    """Clones the current commit, and copies what was built here."""
    shutil.rmtree(path, ignore_errors=True)
    subprocess.run(
        ["git", "clone", "-q", "--no-hardlinks", str(TOP), str(path)], check=True
    )
    for name in BUILT:
        if (TOP / name).is_dir():
            shutil.copytree(TOP / name, path / name, symlinks=True, dirs_exist_ok=True)
    if program:
        (path / PROGRAM).parent.mkdir(parents=True, exist_ok=True)
        shutil.copy(program, path / PROGRAM)


def passes(title: str, words: List[str]) -> bool:
    """Runs a command, and prints which tests failed and its last lines."""
    LOGS.mkdir(parents=True, exist_ok=True)
    log = LOGS / f"{title.replace(' ', '-')}.log"
    with log.open("wb") as file:
        result = subprocess.run(
            words, stdin=subprocess.DEVNULL, stdout=file, stderr=subprocess.STDOUT
        )
    lines = log.read_text(errors="replace").splitlines()
    before = [line for line in lines[:-LINES] if FAILURE.match(line)]
    print(
        *before,
        *lines[-LINES:],
        f"all lines are in {log.relative_to(TOP)}",
        f"{'FAILED' if result.returncode else 'ok'}: {title}",
        sep="\n",
        flush=True,
    )
    return result.returncode == 0


def results(root: pathlib.Path, program: str) -> List[bool]:
    """Returns whether each command passes."""
    roots.make(root, ["python3"])
    clone(root / HOME, program)
    within = roots.inside(root, f"/{HOME}")
    sources = root / SOURCES
    with roots.mount_root(root, {KIT: str(KIT).lstrip("/")}):
        archives = sources.read_text()
        results = [
            passes(
                "the tests without a package", [*within, "python3", "-m", "unittest"]
            )
        ]
        try:
            sources.write_text("")
            subprocess.run(
                [*within, "apt-get", "update", "-q"], stdout=subprocess.DEVNULL
            )
            results.append(
                passes(
                    "the gate without an archive",
                    [*within, "python3", "tools/gate", "--played"],
                )
            )
        finally:
            sources.write_text(archives)
        results.append(
            passes(
                "the gate with an archive",
                [*within, "python3", "tools/gate", "--played"],
            )
        )
        contained_value = roots.inside(root, f"/{HOME}", is_machine=False)
        return [
            *results,
            passes(
                "the lab without walls",
                [
                    *contained_value,
                    "python3",
                    "-m",
                    "tests.runners.integration_tests",
                    PROGRAM,
                ],
            ),
        ]


def main() -> int:
    parser = argparse.ArgumentParser(
        "python3 -m tests.release.bare",
        description=__doc__,
        formatter_class=argparse.RawDescriptionHelpFormatter,
    )
    parser.add_argument(
        "--root",
        metavar="FOLDER",
        type=pathlib.Path,
        help="a root to copy, which is not " "changed",
    )
    parser.add_argument(
        "--program",
        metavar="PATH",
        default="",
        help="what plays in place of the proved program",
    )
    words = parser.parse_args()
    with roots.temporary() as folder:
        root = folder / "root"
        if words.root:
            subprocess.run(["cp", "-a", words.root, root], check=True)
        result = results(root, words.program)
    return report_counts(result.count(True), result.count(False))


if __name__ == "__main__":
    sys.exit(main())
