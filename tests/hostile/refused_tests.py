"""Tests of tests/library/memory whose requests for memory are refused."""
import pathlib
import re
import subprocess
from typing import Dict, Set

from tests.hostile.commands import DONE, Run, end_of
from tests.hostile.refused_calls import MARKS, Shim, Trials, places
from tests.support.counts import FailedCheckError, require

# number of requests outside of the marks that a quick run tries
QUICK_BESIDE = 20
REFUSED_TESTS = "memory::"
PLAYING = "memory::playing::playing_takes_no_memory"
FAILED_TEST = 101
# what a test says that wants memory itself
WANTS = re.compile("(?i)(memory|alloc)")
# output if the program's own request is refused, and the pattern of results over all
# requests
OWN = "after the play"
WANTED_OF_PLAYING = re.compile(r"(begins )*own (passed )*")
# the program of the tests has its own
LINKED = Shim()


def run_test(
    program: str, name: str, folder: pathlib.Path, variables: Dict[str, str]
) -> Run:
    return end_of(
        subprocess.Popen(
            [program, name],
            env=variables,
            cwd=folder,
            stdout=subprocess.PIPE,
            stderr=subprocess.STDOUT,
        )
    )


def marked_requests(numbers: Dict[str, int]) -> Set[int]:
    """Returns the numbers of requests between the first mark and the second, the third
    and the fourth, and so on."""
    marks = [
        numbers[f"mark {index}"] for index in range(MARKS) if f"mark {index}" in numbers
    ]
    if len(marks) % 2:
        raise FailedCheckError(f"{len(marks)} marks are set")
    return {
        index
        for begin, end in zip(marks[::2], marks[1::2])
        for index in range(begin + 1, end + 1)
    }


def outcome_of_test(
    trials: Trials, program: str, name: str, tests: Set[int], index: int
) -> str:
    """What came of a test with a request for memory refused: one of a call that it
    tests, or another."""
    numbers: Dict[str, int] = {}
    with LINKED.counting(numbers, "memory", index) as variables:
        run = run_test(program, name, trials.lab.folder, variables)
    text = run.stdout.decode(errors="replace").strip()
    summary = f"status {run.status}, `{text[:200]}`"
    require(numbers["refused"] == 1, f"the request was not made: {summary}")
    if run.status == DONE:
        return "passed"
    require(index not in tests, f"in the call that is tested: {summary}")
    if run.status == FAILED_TEST and name == PLAYING and OWN in text:
        return "own"
    if run.status == FAILED_TEST and WANTS.search(text):
        return "begins"
    raise FailedCheckError(summary)


def play_in_turn(trials: Trials, program: str, number: int) -> str:
    """Runs the playing test repeatedly, with each request for memory refused once."""
    outcomes = [
        outcome_of_test(trials, program, PLAYING, set(), index)
        for index in range(1, number + 1)
    ]
    require(
        WANTED_OF_PLAYING.fullmatch("".join(f"{outcome} " for outcome in outcomes)),
        f"playing asks for memory: {outcomes}",
    )
    return "none in the play"


def refuse_tests(trials: Trials, tests: str) -> None:
    """Runs each test with each request for memory refused."""
    program = str(pathlib.Path(tests).resolve())
    parts = subprocess.run(
        [program, "--list"], stdout=subprocess.PIPE, text=True, check=True
    ).stdout.split()
    names = [word.rstrip(":") for word in parts if word.startswith(REFUSED_TESTS)]
    if PLAYING not in names:
        trials.lab.faults.append(f"{tests} lacks {PLAYING}")
    for name in names:
        numbers: Dict[str, int] = {}
        with LINKED.counting(numbers) as variables:
            run = run_test(program, name, trials.lab.folder, variables)
        number = numbers["memory"]
        what = f"{name}, memory of {numbers['memory']}"
        if run.status != DONE or not number:
            trials.lab.faults.append(
                f"{what}, with nothing refused: status {run.status}"
            )
        elif name == PLAYING:
            trials.alike(
                lambda index: play_in_turn(trials, program, index),
                [number],
                what,
                f"{name}, memory",
            )
        else:
            refuse_calls(trials, program, name, numbers)


def refuse_calls(
    trials: Trials, program: str, name: str, numbers: Dict[str, int]
) -> None:
    """Runs a test with each request of the calls that it tests refused, and with
    others."""
    tests = marked_requests(numbers)
    if not tests:
        trials.lab.faults.append(f"{name}: no request is one of a call that is tested")
        return
    beside = [index for index in range(1, numbers["memory"] + 1) if index not in tests]
    some = [
        beside[index - 1]
        for index in places(len(beside), trials.limit and QUICK_BESIDE)
    ]
    for kind, chosen in (("in its calls", sorted(tests)), ("beside them", some)):
        trials.alike(
            lambda index: outcome_of_test(trials, program, name, tests, index),
            chosen,
            f"{name}, memory of {len(tests if kind == 'in its calls' else beside)} {kind}",
            f"{name}, memory",
        )
