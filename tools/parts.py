"""Runs commands that count, one after the other, for tools/gate and tools/nightly: the
last line of each reads `N passed, M failed`, and lines that begin with `skipped: ` say
what was left out."""
import os
import pathlib
import re
import subprocess
import sys
from typing import Callable, Iterable, List, NamedTuple, Optional, Sequence

from arena_lab.support.missing import DEBIANS_PYTHON
from tests.support.counts import SKIPPED, Counts, report_counts, counts_in

TOP = pathlib.Path(__file__).resolve().parents[1]
# Debian's Python sees Debian's packages
PYTHON = DEBIANS_PYTHON if pathlib.Path(DEBIANS_PYTHON).exists() else sys.executable

# begins the line of a test, edit or proof that failed
FAILURE = re.compile(
    r"(?:FAIL|ERROR): \w+ \([\w.]+\)|FAILED:? [^(]|edit \S+: (?:NOT|BAD) |rt: \w+ NOT PROVED"
)
PASSED = (1, 0)
FAILED = (0, 1)
NONE = (0, 0)
# reasons for skipped tests, and names of failures
skip_reasons: List[str] = []
failures: List[str] = []


class CommandEnd(NamedTuple):
    """How a command ended: its exit status, what its last line counts, and whether it
    said that it skipped something."""

    status: int
    counts: Optional[Counts]
    has_skipped: bool = False


def is_skipped(line: str) -> bool:
    """Returns whether a line says that something was skipped; it is kept for the end
    then."""
    if line.startswith(SKIPPED):
        skip_reasons.append(line[len(SKIPPED) :])
    return line.startswith(SKIPPED)


def note(line: str) -> None:
    """Keeps the line of something that failed for the end, too."""
    if FAILURE.match(line) and line not in failures:
        failures.append(line)


def run(
    words: Sequence[str],
    hear: Callable[[str], None] = lambda line: None,
    folder: pathlib.Path = TOP,
    **variables: str,
) -> CommandEnd:
    """Runs a command and passes its lines on, except the last line if it has counts,
    and lines about skipped tests."""
    last_line = ""
    has_skipped = False
    with subprocess.Popen(
        words,
        cwd=folder,
        stdout=subprocess.PIPE,
        stderr=subprocess.STDOUT,
        text=True,
        errors="replace",
        env={**os.environ, **variables},
    ) as child:
        assert child.stdout is not None
        for line in child.stdout:
            print(last_line, end="", flush=True)
            last_line = line if counts_in(line) else ""
            if is_skipped(line.strip()):
                has_skipped = True
            elif not last_line:
                print(line, end="", flush=True)
                note(line.strip())
            hear(line.strip())
    return CommandEnd(child.returncode, counts_in(last_line), has_skipped)


def run_and_show(words: Sequence[str], **variables: str) -> Counts:
    """Runs a command of Python with what others leave of the processors, prints what it
    said once it has ended, and gives its counts."""
    result = subprocess.run(
        ["nice", "-n", "19", PYTHON, *words],
        cwd=TOP,
        text=True,
        errors="replace",
        stdout=subprocess.PIPE,
        stderr=subprocess.STDOUT,
        env={**os.environ, **variables},
    )
    lines, _, last = result.stdout.rstrip("\n").rpartition("\n")
    counts = counts_in(last)
    all_lines = (lines if counts else result.stdout).splitlines()
    shown_lines = [line for line in all_lines if not is_skipped(line)]
    print("\n".join(shown_lines), flush=True)
    for line in shown_lines:
        note(line)
    has_skipped = len(shown_lines) < len(all_lines)
    return count_tests(CommandEnd(result.returncode, counts, has_skipped))


def count_tests(result: CommandEnd) -> Counts:
    """What counts for a command: its own numbers, with one failed if it failed and does
    not say so, and if it counts none and skipped none: then it played nothing."""
    passes, failed_count = result.counts or (FAILED if result.status else PASSED)
    has_played = result.has_skipped or (passes, failed_count) != NONE
    return passes, max(failed_count, int(result.status != 0 or not has_played))


def say(name: str, counts: Counts) -> None:
    """Prints what a command counts. If something failed, the line comes again at the
    end."""
    line = f"{name}: {counts[0]} passed, {counts[1]} failed"
    print(line, flush=True)
    if counts[1]:
        failures.append(line)


def conclude(counts: Iterable[Counts], lacking: str, left_out: str = "") -> int:
    """Prints what was skipped, which packages are lacking, what failed, what was left
    out, and the sum: gives how many failed."""
    for line in [
        *([f"{len(skip_reasons)} skipped:", *skip_reasons] if skip_reasons else []),
        *([lacking] if lacking else []),
        *(["failed:", *failures] if failures else []),
        *([left_out] if left_out else []),
    ]:
        print(line)
    passes, failed_count = map(sum, zip(*counts))
    report_counts(passes, failed_count)
    return failed_count
