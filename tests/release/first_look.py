"""Tries what a newcomer does first: README's commands in a source archive where only
rustc is installed, and in a clone where only Rattle's toolchain is; and a release.

    python3 -m tests.release.first_look

Both are of the last commit. The first command compiles the program without a
proof; a line says how long it took, and how long the next start did. A line tells each
case that fails; the last line reads `N passed, M failed`, and the exit status is 1 if
one failed.
"""
import functools
import os
import pathlib
import subprocess
import sys
import tarfile
import tempfile
import time
from typing import Any, Callable, Dict, Iterator, List, NamedTuple, Sequence, Tuple

from arena_lab.support.built import PORT_LINE, UNPROVED_LINE
from tests.support.counts import report_counts
from tools.prove import version

TOP = pathlib.Path(__file__).resolve().parents[2]
CONTEST = "examples/contest.py"
SCRIPT = "examples/triangle.script"
PRINTED = "examples/triangle.printed"
TEAMS = 4
MODULE = "examples/agents/wasm/ring.wasm:{nodes}"
RunResult = subprocess.CompletedProcess


class Look(NamedTuple):
    """A tree on a machine with one compiler: variables hide the other compiler, the
    program prints a line, and its compilation another."""

    compiler: str
    variables: Dict[str, str]
    line: str
    compilation_line: str
    clone: pathlib.Path

    def environment(self) -> Dict[str, str]:
        """Returns the variables of who has named no program."""
        variables = {**os.environ, **self.variables}
        for name in ("ARENA", "ARENA_PROGRAM"):
            variables.pop(name, None)
        return variables

    def begin(self, words: Sequence[object], stdin: Any) -> "subprocess.Popen[str]":
        return subprocess.Popen(
            [str(word) for word in words],
            cwd=self.clone,
            env=self.environment(),
            stdin=stdin,
            stdout=subprocess.PIPE,
            stderr=subprocess.PIPE,
            text=True,
        )

    def run(self, *words: object, stdin: Any = subprocess.DEVNULL) -> "RunResult[str]":
        """Runs a command."""
        with self.begin(words, stdin) as child:
            output, errors = child.communicate()
        return RunResult(words, child.returncode, output, errors)

    def answers(self) -> None:
        """Two starts at once, and a third: each plays the script, and the program is
        compiled once."""
        text = (self.clone / PRINTED).read_text()
        words = ["./arena", "rehearse"]
        start_time = time.monotonic()
        with open(self.clone / SCRIPT) as first, open(self.clone / SCRIPT) as second:
            starts = [self.begin(words, script) for script in (first, second)]
            results = [RunResult(words, 0, *start.communicate()) for start in starts]
        seconds = time.monotonic() - start_time
        start_time = time.monotonic()
        with open(self.clone / SCRIPT) as script:
            again = self.run(*words, stdin=script)
        print(
            f"by {self.compiler} the first answer came after {seconds:.0f} s, the next after "
            f"{time.monotonic() - start_time:.2f} s",
            flush=True,
        )
        for start in results:
            wants(
                start.stdout == text and start.stderr.endswith(f"{self.line}\n"), start
            )
        compilations = sum(self.compilation_line in start.stderr for start in results)
        wants(compilations == 1, results[0])
        wants((again.stdout, again.stderr) == (text, f"{self.line}\n"), again)

    def plays(self) -> None:
        """A contest in which all teams solve their networks, by a program that says
        once that it is not proved."""
        result = self.run(sys.executable, CONTEST)
        solved_count = result.stdout.count(" solved its network\n")
        line_count = result.stderr.count(f"{self.line}\n")
        wants((result.returncode, solved_count, line_count) == (0, TEAMS, 1), result)
        wants(f"arena: {version.version()}, unproved; commit " in result.stderr, result)

    def checks(self) -> None:
        """A module is checked, for which the player is compiled too."""
        result = self.run("./arena-lab", "check", MODULE)
        wants(result.returncode == 0 and result.stderr.count(self.line) > 0, result)


def wants(is_right: bool, result: "RunResult[str]") -> None:
    """Fails with what a command said, if that is not right."""
    if not is_right:
        raise AssertionError(
            f"status {result.returncode}, {result.stdout!r}, {result.stderr[-500:]!r}"
        )


def is_released(look: Look) -> None:
    """A release is unpacked; its checksums are right, it says that it is not proved,
    and it plays."""
    folder = look.clone.parent
    result = look.run(sys.executable, "tools/release", "--unproved", "--out", folder)
    wants(result.returncode == 0, result)
    (path,) = folder.glob("*-unproved.tar.gz")
    with tarfile.open(path) as archive:
        archive.extractall(folder)
    release = look._replace(clone=folder / path.name[: -len(".tar.gz")])
    result = release.run("sha256sum", "--quiet", "-c", "SHA256SUMS")
    wants(result.returncode == 0, result)
    result = release.run("./arena", "--version")
    wants(
        result.stdout.startswith(f"arena {version.version()}, unproved\ncommit "),
        result,
    )
    release.plays()


def source_tree(folder: pathlib.Path) -> pathlib.Path:
    """Unpacks a source archive of the last commit, and gives where."""
    clone = folder / "clone"
    subprocess.run(["git", "clone", "-q", TOP, clone], check=True)
    words = [sys.executable, "tools/release", "--source", "--out", folder]
    subprocess.run(words, cwd=clone, check=True, stdout=subprocess.DEVNULL)
    (path,) = folder.glob("*-source.tar.gz")
    with tarfile.open(path) as archive:
        archive.extractall(folder)
    return folder / path.name[: -len(".tar.gz")]


def cases(folder: pathlib.Path) -> Iterator[Tuple[str, Callable[[], None]]]:
    """Yields the cases for a machine with rustc, and for one with Rattle's toolchain."""
    nowhere = str(folder / "nowhere")
    by_rustc = Look(
        "rustc",
        {"RATTLE": nowhere},
        PORT_LINE,
        "compiled by rustc, without a proof in",
        source_tree(folder),
    )
    by_rattle = Look(
        "Rattle",
        {"RUSTC": nowhere},
        UNPROVED_LINE,
        "compiled without a proof in",
        folder / "rattle",
    )
    subprocess.run(["git", "clone", "-q", TOP, by_rattle.clone], check=True)
    for look in (by_rustc, by_rattle):
        for name, case in (("answers", look.answers), ("plays", look.plays)):
            yield f"{look.compiler}: {name}", case
    yield "rustc: checks", by_rustc.checks
    # a release has the page of the browser, which rustc compiles
    machine = by_rattle._replace(variables={})
    yield "Rattle: is released", functools.partial(is_released, machine)


def main(arguments: List[str]) -> int:
    if arguments:
        print(__doc__.strip())
        return 0 if arguments in (["-h"], ["--help"]) else 2
    pass_count = failure_count = 0
    with tempfile.TemporaryDirectory() as folder:
        for name, case in cases(pathlib.Path(folder)):
            try:
                case()
                pass_count += 1
            except AssertionError as fault:
                failure_count += 1
                print(f"FAILED first look: {name}: {fault}")
    return report_counts(pass_count, failure_count)


if __name__ == "__main__":
    sys.exit(main(sys.argv[1:]))
