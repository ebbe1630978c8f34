"""The quick gate, `tools/gate --quick`: what needs no proof, in some minutes.

It compiles the program and the player of modules by the toolchain without a proof, with
checks at run time, and beside that runs the tests of the libraries and of the Python programs. Then it
plays rows, cases and the quick tests of the lab on that program.
"""
import concurrent.futures
from typing import List

from arena_lab.support.built import ARENA, is_current
from tests.support.counts import Counts
from tools.parts import FAILED, PYTHON, TOP, count_tests, run, run_and_show, say

PROGRAM = str((ARENA.stamp_path.parent / ARENA.name).relative_to(TOP))
# compiled and tested side by side, before the program is played
FIRST_COMMANDS = (
    ("-m", "tools.prove.unproved"),
    ("-m", "tools.prove.unproved", "bhs_player"),
    ("-m", "tests.runners.library_tests"),
    ("-m", "tests.runners.python_tests"),
)
LEFT_OUT = (
    "left out, `.ci/run` has it: proofs, edits, instructions, the benchmark, the sample contest, hostile clients,"
    " failing machines, spoilers, operators, refusals, the lab's searches and sweeps, kits and modules"
)


def is_compiled() -> bool:
    """Returns whether the program is compiled of the current sources."""
    return is_current(ARENA.stamp_path)


def play() -> List[Counts]:
    """Plays the program without a proof, and gives what counts for each command."""
    if not is_compiled():
        print("the program was not compiled: nothing is played")
        return [FAILED]
    counts = []
    for name, *words in (
        ("tests.runners.program_tests", PROGRAM),
        ("tests.runners.integration_tests", PROGRAM, "--quick"),
    ):
        counts.append(count_tests(run([PYTHON, "-m", name, *words])))
        say(name, counts[-1])
    return counts


def run_all() -> List[Counts]:
    """Compiles and tests what needs no proof, and gives what counts for each command."""
    print(
        "compiling the program without a proof beside the tests of the libraries and of the Python: some minutes",
        flush=True,
    )
    with concurrent.futures.ThreadPoolExecutor(len(FIRST_COMMANDS)) as pool:
        counts = list(pool.map(run_and_show, FIRST_COMMANDS))
    for words, of_words in zip(FIRST_COMMANDS, counts):
        say(" ".join(words), of_words)
    return [*counts, *play()]
