"""Gives `arena judge` texts that are no replays, and looks at its fault, its time and
its memory.

    python3 -m tests.hostile.hostile_replays [PROGRAM] [--size BYTES]

PROGRAM is the built program, by default ./arena. Each text has BYTES bytes, by default
1 GiB, and comes through a pipe, so no file is written. A line for each has the fault
and the status, the seconds, the peak memory, and both again for a text of a quarter of
the size. The exit status is 1 if a fault is wrong, if time grows much faster than the
text, or if memory is more than three times the longest line and 4 MiB.

A replay's lines have no limit of length, so the program holds one line, and while that
grows its first half once more.
"""
import argparse
import pathlib
import subprocess
import sys
import threading
import time
from typing import BinaryIO, Iterator, List, NamedTuple, Tuple

from bench.inputs import MIB, peak_of_child
from tests.support.counts import report_counts

TOP = pathlib.Path(__file__).resolve().parents[2]
HEAD = (
    b'{"agents":2,"board":8,"dark":[],"holes":[2],"home":0,"links":[[0,0,1,0],[0,1,2,1],[1,1,2,0]],'
    b'"nodes":3,"quota":10,"replay":2}\n'
)
ENTER = (
    b'{"agent":0,"do":"enter","reply":{"board":"","from":null,"ok":"here","ports":2}}\n'
)
BAD = b'{"agent":0,"do":"bad","reply":{"no":"line"}}\n'


class Case(NamedTuple):
    """A hostile text: its beginning, the repeated part, the expected fault line and
    status, and whether it is a single line."""

    name: str
    begin: bytes
    again: bytes
    fault: str
    status: int
    is_line: bool


CASES = [
    Case("one line of letters", b"", b"a" * 4096, "head", 3, True),
    Case("NUL bytes", b"", b"\0" * 4096, "head", 3, True),
    Case("lists in lists", b"", b"[" * 4096, "head", 3, True),
    Case("objects in objects", b"", b'{"a":' * 1024, "head", 3, True),
    Case("empty lines", b"", b"\n" * 4096, "head", 3, False),
    Case("an end line first", b'{"end":0}\n', BAD * 64, "head", 3, False),
    Case(
        "an end line behind the head", HEAD + b'{"end":0}\n', BAD * 64, "end", 3, False
    ),
    Case("letters behind the head", HEAD, b"a" * 4096, "end", 3, True),
    Case(
        "lists in lists in an event",
        HEAD + b'{"agent":0,"do":',
        b"[" * 4096,
        "end",
        3,
        True,
    ),
    Case(
        "more events than a quota allows", HEAD + ENTER, BAD * 64, "event 13", 4, False
    ),
]


class Run(NamedTuple):
    """What came of a run: the fault, the status, the seconds, and the peak memory in
    MiB."""

    fault: str
    status: int
    seconds: float
    peak: float


def pieces(case: Case, size: int) -> Iterator[bytes]:
    """The text in pieces."""
    piece = case.again * max(1, MIB // len(case.again))
    yield case.begin
    remaining = size - len(case.begin)
    while remaining > 0:
        yield piece[:remaining]
        remaining -= len(piece)


def write_text(pipe: BinaryIO, case: Case, size: int) -> None:
    """Writes the text, as far as the program reads it."""
    try:
        with pipe:
            for piece in pieces(case, size):
                pipe.write(piece)
    except BrokenPipeError:
        pass


def run(program: List[str], case: Case, size: int) -> Run:
    """Judges one text."""
    begin = time.monotonic()
    child = subprocess.Popen(
        [*program, "judge", "/dev/stdin"],
        stdin=subprocess.PIPE,
        stdout=subprocess.DEVNULL,
        stderr=subprocess.PIPE,
    )
    writer = threading.Thread(target=write_text, args=(child.stdin, case, size))
    writer.start()
    peak = peak_of_child(child) / 1024
    seconds = time.monotonic() - begin
    writer.join()
    with child.stderr:
        errors = child.stderr.read().decode(errors="replace").strip()
    return Run(errors.partition(": ")[2], child.returncode, seconds, peak)


def faults_of(case: Case, size: int, whole: Run, part: Run) -> List[str]:
    """Returns the mistakes in the runs of a case."""
    results = []
    for first in (whole, part):
        if (first.fault, first.status) != (case.fault, case.status):
            results.append(
                f"`{first.fault}` with status {first.status} for `{case.fault}` with status {case.status}"
            )
    bound = 4 + (3 * size / MIB if case.is_line else 0)
    if whole.peak > bound:
        results.append(f"{whole.peak:.0f} MiB, more than {bound:.0f}")
    if whole.seconds > 8 * part.seconds + 1:
        results.append(
            f"{whole.seconds:.1f} s, but a quarter takes {part.seconds:.1f} s"
        )
    return results


def words() -> Tuple[List[str], int]:
    parser = argparse.ArgumentParser(
        description=__doc__, formatter_class=argparse.RawDescriptionHelpFormatter
    )
    parser.add_argument("program", nargs="?", default=str(TOP / "arena"))
    parser.add_argument("--size", type=int, default=1024 * MIB)
    args = parser.parse_args()
    return [args.program], args.size


def main() -> int:
    program, size = words()
    failure_count = 0
    for case in CASES:
        part = run(program, case, size // 4)
        whole = run(program, case, size)
        faults = faults_of(case, size, whole, part)
        failure_count += bool(faults)
        wrong = "".join(f"; WRONG: {fault}" for fault in faults)
        print(
            f"{case.name}: {whole.fault}, status {whole.status}; {whole.seconds:.2f} s, {whole.peak:.0f} MiB; "
            f"a quarter {part.seconds:.2f} s, {part.peak:.0f} MiB{wrong}",
            flush=True,
        )
    return report_counts(len(CASES) - failure_count, failure_count)


if __name__ == "__main__":
    sys.exit(main())
