"""Runs the program with one system call refused, and checks the faults that it
reports."""
import collections
import concurrent.futures
import contextlib
import os
import pathlib
import struct
import subprocess
import tempfile
from typing import (
    Callable,
    Dict,
    Iterable,
    Iterator,
    List,
    NamedTuple,
    Optional,
    Sequence,
    Tuple,
)

from tests.hostile.commands import (
    DONE,
    FAILED_STREAM,
    NO_MEMORY,
    NO_THREADS,
    Lab,
    Run,
    end_of,
)
from tests.support.counts import FailedCheckError

SHIM = pathlib.Path(__file__).resolve().with_name("refusals_shim.c")
KINDS = ["memory", "read", "write"]
COUNTED = [*KINDS, "refused"]
# how many marks a program may set
MARKS = 32
STATUSES = {"memory": NO_MEMORY, "read": FAILED_STREAM, "write": FAILED_STREAM}
MODES = ["memory", "read", "short-read", "write", "short-write"]


class Shim:
    """What refuses and counts calls: a library that is loaded, or a part of the
    program."""

    def __init__(self, loaded_value: str = "") -> None:
        self.variables = {"LD_PRELOAD": loaded_value} if loaded_value else {}

    @classmethod
    def built(cls, folder: pathlib.Path) -> "Shim":
        library = str(folder / "shim.so")
        subprocess.run(
            ["gcc", "-shared", "-fPIC", "-O2", "-o", library, str(SHIM)], check=True
        )
        return cls(library)

    @contextlib.contextmanager
    def counting(
        self, numbers: Dict[str, int], mode: str = "", index: int = 0
    ) -> Iterator[Dict[str, str]]:
        """Yields an environment in which calls are counted and, optionally, one is
        refused; fills `numbers` at the end."""
        refuse = {"REFUSE": f"{mode} {index}"} if mode else {}
        with tempfile.NamedTemporaryFile() as file:
            file.write(bytes(8 * (len(COUNTED) + MARKS)))
            file.flush()
            yield {**os.environ, **self.variables, "COUNTS": file.name, **refuse}
            result = struct.unpack(
                f"{len(COUNTED) + MARKS}Q", pathlib.Path(file.name).read_bytes()
            )
        numbers.update(zip(COUNTED, result))
        numbers.update(
            {
                f"mark {index}": mark - 1
                for index, mark in enumerate(result[len(COUNTED) :])
                if mark
            }
        )


class Attempt(NamedTuple):
    """What came of a run, the replays that it left, and how many calls it made."""

    run: Run
    replays: Dict[str, bytes]
    numbers: Dict[str, int]

    def did_as(self, attempt: "Attempt") -> bool:
        return (self.run, self.replays) == (attempt.run, attempt.replays)


class Trials(NamedTuple):
    """The program, the library that refuses it calls, and how many runs of a kind there
    are and at the same time."""

    lab: Lab
    shim: Shim
    limit: int
    most_served: int
    workers: int

    def alike(
        self, work: Callable[[int], str], some: Iterable[int], what: str, name: str
    ) -> None:
        """Does a piece of work for each of these places, several at the same time, and
        counts what came of them."""

        def try_once(index: int) -> Tuple[str, List[str]]:
            try:
                return work(index), []
            except Exception as why:
                return "otherwise", [f"{name} {index}: {why}"]

        with concurrent.futures.ThreadPoolExecutor(self.workers) as pool:
            results = list(pool.map(try_once, some))
        self.lab.runs += len(results)
        self.lab.faults += [fault for _, faults in results for fault in faults]
        self.lab.report(what, collections.Counter(outcome for outcome, _ in results))


def kind_of(mode: str) -> str:
    return mode.rpartition("-")[2]


def places(number: int, limit: int) -> Sequence[int]:
    """The places 1 to a number, or at most this many of them, evenly spread, the first
    and the last among them."""
    if not limit or number <= limit:
        return range(1, number + 1)
    return [1 + index * (number - 1) // (limit - 1) for index in range(limit)]


@contextlib.contextmanager
def room_of(lab: Lab) -> Iterator[pathlib.Path]:
    """A folder for one run, with the examples."""
    with tempfile.TemporaryDirectory(dir=lab.folder) as name:
        (pathlib.Path(name) / "examples").symlink_to(lab.folder / "examples")
        yield pathlib.Path(name)


def replays_in(folder: pathlib.Path) -> Dict[str, bytes]:
    return {path.name: path.read_bytes() for path in folder.glob("kept*.jsonl")}


def plain_run(
    lab: Lab,
    words: Sequence[str],
    folder: pathlib.Path,
    script: str = "",
    variables: Optional[Dict[str, str]] = None,
) -> Run:
    """What came of the program with these words in a folder."""
    with open(folder / script if script else os.devnull, "rb") as source:
        return end_of(
            subprocess.Popen(
                [lab.program, *words],
                cwd=folder,
                env=variables,
                stdin=source,
                stdout=subprocess.PIPE,
                stderr=subprocess.PIPE,
            )
        )


def judge(lab: Lab, text: bytes, *words: str) -> Optional[bytes]:
    """What the program prints of a replay, with nothing refused, or None if it refuses
    the text."""
    with room_of(lab) as room:
        (room / "left.jsonl").write_bytes(text)
        run = plain_run(lab, words or ["judge", "left.jsonl"], room)
    return run.stdout if run.status == DONE else None


def fault_of(mode: str, run: Run) -> str:
    """The place that the one fault line names, which is the fault that this refusal
    makes, with its status."""
    where, _, text = run.stderr.rstrip("\n").rpartition(": ")
    # a thread needs memory to start
    faults = {
        mode: STATUSES[mode],
        **({"threads": NO_THREADS} if mode == "memory" else {}),
    }
    if (
        run.stderr != f"{where}: {text}\n"
        or "\n" in where
        or run.status != faults.get(text)
    ):
        raise FailedCheckError(f"status {run.status}, `{run.stderr.strip()[:200]}`")
    return where
