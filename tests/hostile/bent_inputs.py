"""Compares what two builds of the program print of bent replays and scripts.

    python3 -m tests.hostile.bent_inputs PROGRAM OTHER [--replays N] [--scripts N] [--seed SEED] [--workers W]
        [--keep FOLDER]

Makes 10,000 replays and 2,000 scripts, or as many as are asked for. They begin as
replays and scripts of examples/, or as those of matches that the lab's model plays at
random. Each is then bent at random in one to three places.

- Bytes are changed, deleted or doubled.
- Numbers get a zero in front or are too large.
- Spaces and escapes stand where none should.
- A line gets the event or the reply of another line.
- Lines are swapped, dropped, doubled or cut, or end with a carriage return.
- Texts are no UTF-8, or long.
- A script gets lines of another match or connection, bytes in hexadecimal, and lines
  that are too long.

Both programs judge, explain and twin each replay, and rehearse each script, whole and
line by line. Their exit statuses and their bytes on standard output and standard error
must be the same.

Prints how often each fault was told, and a line for each difference; with --keep the
inputs that make one are written to FOLDER. The exit status is 1 where there is a
difference. The same seed makes the same inputs. A run takes about a minute for 10,000
replays and two proved builds, and as long for 2,000 scripts.
"""
import argparse
import collections
import concurrent.futures
import pathlib
import random
import re
import shutil
import subprocess
import sys
import tempfile
from typing import Counter, Dict, Iterator, List, NamedTuple, Optional, Sequence

from tests.hostile.bends import REPLAY_BENDS, SCRIPT_BENDS, Bend
from tests.hostile.drawn_inputs import RehearsalInput, drawn_replay, drawn_script

TOP = pathlib.Path(__file__).resolve().parents[2]
REPLAYS = 10_000
SCRIPTS = 2000
SEED = 0
WORKERS = 2
CUP = "cup.toml"


def bent(text: bytes, bends: Sequence[Bend], number: int, rng: random.Random) -> bytes:
    """A text of this number, bent: one in forty is not bent at all."""
    for _ in range(0 if number % 40 == 0 else rng.choice((1, 1, 1, 2, 3))):
        text = rng.choice(bends)(text, rng)
    return text


def replay_of(number: int, seed: int, examples: Sequence[bytes]) -> bytes:
    """A bent replay by its number."""
    rng = random.Random(f"{seed} {number}")
    text = rng.choice(examples) if rng.random() < 0.2 else drawn_replay(rng)
    return bent(text, REPLAY_BENDS, number, rng)


def script_of(number: int, seed: int) -> RehearsalInput:
    """A bent script by its number, with the files of its tournament."""
    rng = random.Random(f"script {seed} {number}")
    draw = drawn_script(rng)
    return draw._replace(script=bent(draw.script, SCRIPT_BENDS, number, rng))


# Results of the programs.


class RunResult(NamedTuple):
    """What came of a run."""

    status: int
    stdout: bytes
    stderr: bytes


def run(program: str, words: Sequence[str], data: bytes = b"") -> RunResult:
    result = subprocess.run(
        [program, *words], input=data, capture_output=True, check=False
    )
    return RunResult(result.returncode, result.stdout, result.stderr)


class Comparison(NamedTuple):
    """An input, by kind and number, with the fault that the first program printed, and
    the commands whose results differ."""

    kind: str
    number: int
    fault: str
    differing: List[str]


def fault_of(result: RunResult) -> str:
    """The last line that was told, without the file's name and numbers."""
    last = (
        result.stderr.decode(errors="replace")
        .strip()
        .rpartition("\n")[2]
        .rpartition(": ")[2]
    )
    return re.sub(r"\d+", "N", last) if result.status else "none"


def compare(
    kind: str,
    number: int,
    programs: Sequence[str],
    runs: Dict[str, List[str]],
    data: bytes,
) -> Comparison:
    """Runs all commands on an input by both programs."""
    differing = []
    fault = ""
    for name, line in runs.items():
        first, second = (run(program, line, data) for program in programs)
        fault = fault or fault_of(first)
        if first != second:
            differing.append(name)
    return Comparison(kind, number, fault, differing)


class Comparing:
    """Two programs that are compared, and where their inputs are written."""

    def __init__(self, args: argparse.Namespace, folder: pathlib.Path) -> None:
        self.given = args
        self.folder = folder
        self.programs = [
            str(pathlib.Path(name).resolve()) for name in (args.program, args.other)
        ]
        self.examples = [
            path.read_bytes() for path in sorted((TOP / "examples").glob("*.jsonl"))
        ]

    def settle(self, path: pathlib.Path, comparison: Comparison) -> Comparison:
        """Keeps a folder of inputs if it makes a difference, and removes it."""
        if comparison.differing and self.given.keep:
            shutil.copytree(path, self.given.keep / path.name, dirs_exist_ok=True)
        shutil.rmtree(path)
        return comparison

    def replay(self, number: int) -> Comparison:
        folder = self.folder / f"replay-{number}"
        rng = random.Random(number)
        folder.mkdir()
        path = folder / "replay.jsonl"
        path.write_bytes(replay_of(number, self.given.seed, self.examples))
        runs = {
            "judge": ["judge", str(path)],
            "explain": ["explain", str(path), str(rng.randrange(3))],
            "twin": ["twin", str(path), str(rng.randrange(6))],
        }
        return self.settle(folder, compare("replay", number, self.programs, runs, b""))

    def script(self, number: int) -> Comparison:
        folder = self.folder / f"script-{number}"
        (files, script) = script_of(number, self.given.seed)
        folder.mkdir()
        for name, text in files.items():
            (folder / name).write_text(text)
        (folder / "script").write_bytes(script)
        line = ["rehearse", str(folder / CUP)]
        runs = {"rehearse": line, "rehearse --interactive": [*line, "--interactive"]}
        return self.settle(
            folder, compare("script", number, self.programs, runs, script)
        )

    def all(self) -> Iterator[Comparison]:
        """Makes the inputs and compares the programs on each."""
        with concurrent.futures.ThreadPoolExecutor(self.given.workers) as pool:
            yield from pool.map(self.replay, range(self.given.replays))
            yield from pool.map(self.script, range(self.given.scripts))


def words(argv: Optional[Sequence[str]] = None) -> argparse.Namespace:
    parser = argparse.ArgumentParser(
        description=__doc__, formatter_class=argparse.RawDescriptionHelpFormatter
    )
    parser.add_argument("program", help="a built program")
    parser.add_argument("other", help="another build of it")
    parser.add_argument(
        "--replays",
        type=int,
        default=REPLAYS,
        metavar="N",
        help="how many replays are made",
    )
    parser.add_argument(
        "--scripts",
        type=int,
        default=SCRIPTS,
        metavar="N",
        help="how many scripts are made",
    )
    parser.add_argument(
        "--seed", type=int, default=SEED, help="what the inputs are drawn from"
    )
    parser.add_argument(
        "--workers",
        type=int,
        default=WORKERS,
        metavar="W",
        help="how many are tried at a time",
    )
    parser.add_argument(
        "--keep",
        type=pathlib.Path,
        metavar="FOLDER",
        help="where inputs go that make a difference",
    )
    return parser.parse_args(argv)


def main() -> int:
    conditions = words()
    faults: Counter[str] = collections.Counter()
    differences = 0
    if conditions.keep:
        conditions.keep.mkdir(parents=True, exist_ok=True)
    with tempfile.TemporaryDirectory() as name:
        for result in Comparing(conditions, pathlib.Path(name)).all():
            faults[result.fault] += 1
            if result.differing:
                differences += 1
                print(
                    f"{result.kind} {result.number}: the programs differ in {', '.join(result.differing)}",
                    flush=True,
                )
    for fault, count in faults.most_common():
        print(f"{fault}: {count}")
    print(
        f"{conditions.replays} replays, {conditions.scripts} scripts, {differences} differences"
    )
    return 1 if differences else 0


if __name__ == "__main__":
    sys.exit(main())
