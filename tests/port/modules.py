"""Compares the interpreter and the reader of modules with node's own WebAssembly, on
modules by chance.

    python3 -m tests.port.modules [--modules N] [--damaged N] [--seed S]

The interpreter is that of bhs_wasm, compiled as plain Rust (tools/port). A
drawn module says commands, and ends or traps: what it says, how it ends and what its
memory is then are the same by node. A damaged one has some bytes drawn anew, or is cut:
node refuses what the reader refuses as not valid, takes what the reader takes, and runs
it so if it ends. A line names the seed of each module that differs. The last line reads
`N passed, M failed`, and the exit status is 1 if one failed.
"""
import argparse
import pathlib
import random
import subprocess
import sys
import tempfile
from typing import Dict, List, NamedTuple, Sequence

from tests.port import searching
from tests.port.drawn_modules import drawn_module
from tests.support.counts import report_counts

HERE = pathlib.Path(__file__).resolve().parent
RING = HERE.parents[1] / "examples" / "agents" / "wasm" / "ring.wasm"
MODULES = 5_000
DAMAGED = 10_000
# how many are compared at a time
BATCH = 200
# why a module is refused that node may take: agents do without, or it is too large
OWN = (
    "Float",
    "Opcode",
    "Import",
    "ImportType",
    "Start",
    "Segment",
    "Large",
    "Run",
    "RunType",
    "Main",
)


class Case(NamedTuple):
    """A module by its seed, and whether it is damaged."""

    seed: int
    is_damaged: bool

    def file(self) -> bytes:
        rng = random.Random(f"module {self.seed}")
        if not self.is_damaged:
            return drawn_module(rng)
        rng = random.Random(f"damaged {self.seed}")
        whole = rng.choice((RING.read_bytes, lambda: drawn_module(rng)))()
        file = bytearray(whole)
        for _ in range(rng.randrange(1, 4)):
            file[rng.randrange(len(file))] = rng.choice(
                (rng.randrange(256), rng.choice(file), rng.randrange(12))
            )
        is_cut = rng.random() < 0.1
        return bytes(file[: rng.randrange(len(file))] if is_cut else file)

    def __str__(self) -> str:
        return f"{'damaged' if self.is_damaged else 'module'} {self.seed}"


def come_of(words: Sequence[object], files: Sequence[pathlib.Path]) -> List[List[str]]:
    """What a command prints of each file."""
    result = subprocess.run(
        [str(word) for word in words],
        input="".join(f"{file}\n" for file in files),
        text=True,
        check=True,
        stdout=subprocess.PIPE,
    )
    return [part.splitlines() for part in result.stdout.split("====\n")[:-1]]


def agrees(case: Case, ours: List[str], nodes: List[str]) -> bool:
    """Returns whether node says the same of a module, as far as it must."""
    kind, *reason = ours[-1].split()
    is_taken_by_node = nodes != ["refused"]
    if kind == "refused":
        return case.is_damaged and (
            reason[0].partition("(")[0] in OWN or not is_taken_by_node
        )
    if case.is_damaged and kind != "ends":
        return is_taken_by_node
    # node does not see a memory that a damaged module exports by no name
    is_blind = nodes[-1] == "ends"
    return ours[:-1] == nodes[:-1] if is_blind else ours == nodes


def compare(program: pathlib.Path, cases: Sequence[Case]) -> List[str]:
    """Returns a line for each module on which the programs differ."""
    with tempfile.TemporaryDirectory(prefix="modules-") as folder:
        files = [pathlib.Path(folder) / str(index) for index in range(len(cases))]
        for case, file in zip(cases, files):
            file.write_bytes(case.file())
        ours = come_of([program, "modules"], files)
        endless = [
            file
            for file, message_text in zip(files, ours)
            if message_text[-1] == "fuel"
        ]
        run = [file for file in files if file not in endless]
        by_node = come_of(["node", HERE / "modules.js"], run)
    text_sent: Dict[pathlib.Path, List[str]] = dict(zip(run, by_node))
    return [
        f"FAILED {case}: {first_difference(message_text, text_sent[file])}"
        for case, file, message_text in zip(cases, files, ours)
        if file in text_sent and not agrees(case, message_text, text_sent[file])
    ]


def first_difference(ours: List[str], nodes: List[str]) -> str:
    """The first lines in which they differ."""
    pairs = zip([*ours, "nothing more"], [*nodes, "nothing more"])
    first, second = next((pair for pair in pairs if pair[0] != pair[1]), ("", ""))
    return f"{first}; node: {second}"


def main() -> int:
    parser = argparse.ArgumentParser(
        "python3 -m tests.port.modules",
        description=__doc__,
        formatter_class=argparse.RawDescriptionHelpFormatter,
    )
    parser.add_argument("--modules", metavar="N", type=int, default=MODULES)
    parser.add_argument("--damaged", metavar="N", type=int, default=DAMAGED)
    parser.add_argument("--seed", metavar="S", type=int, default=0, help="the first")
    words = parser.parse_args()
    program = searching.program()
    first = words.seed
    cases = [
        *(Case(seed, False) for seed in range(first, first + words.modules)),
        *(Case(seed, True) for seed in range(first, first + words.damaged)),
    ]
    failure_count = 0
    for begin in range(0, len(cases), BATCH):
        lines = compare(program, cases[begin : begin + BATCH])
        print(*lines, sep="\n", end="\n" * len(lines), flush=True)
        failure_count += len(lines)
    return report_counts(len(cases) - failure_count, failure_count)


if __name__ == "__main__":
    sys.exit(main())
