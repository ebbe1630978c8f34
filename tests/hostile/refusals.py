"""Refuses the program one request for memory, or fails or shortens one read or one
write, each in turn.

    python3 -m tests.hostile.refusals [--quick] [--workers N] PROGRAM [TESTS]

PROGRAM is the built program, linked dynamically. Each command is run on the examples
with the first, the second, and each later request for memory refused; then with each
read and each write failed, and with each shortened to one byte. A run with a short read
or write must do what it does else. Any other must do that too, or tell the fault
(`memory`, `read` or `write`, with its status) of a place that it may name; what it
printed is then the front of what it prints else, and `judge` refuses each replay that
it left and that is not whole. If the fault line itself could not be written, the status
and what was printed are the same. Nothing may crash, hang or end with another status.

A server is run so as well, with a client that enters and looks and one that has a wrong
key. It must end within ten seconds, by itself. What the clients hear are fronts of what
they hear else, and at most one of them hears less if the server ends well; the table is
that of the replay; and the replay has all that was answered.

A contest of which a part is left is finished so as well. Whatever is refused, the
replay is whole or the part is there; and the same command, with nothing refused, then
finishes it.

TESTS is the program that `tests/runners/library_tests.py TESTS` leaves. Its tests of
tests/library/memory are run with each request for memory refused. They mark the
beginning and the end of the calls that they test: if a request between two such marks
is refused, the test must pass; if another one is, it may want memory itself. One test
makes a match, plays on it, and then asks for memory once, for itself: no request before
that may be one of the play.

A line is printed for each command and kind, with the number of runs and what came of
them, and then the number of all; the exit status is 1 if a run ended otherwise. With
--quick there are at most 60 runs of each command and kind, 40 of a server and kind, and
20 of what a test does beside the calls that it tests, evenly spread, the first and the
last among them; all others are left out. Without it only those of a server are left out
that are more than 2,000 of a kind. It needs gcc, which builds
`tests/hostile/refusals_shim.c`.
"""
import argparse
import functools
import os
import pathlib
import shutil
import sys
import tempfile
from typing import Callable, Dict, Optional, Set

from tests.hostile.commands import (
    ALL_HOLES,
    COMMANDS,
    DONE,
    WHOLE_OF_PART,
    Command,
    Lab,
    Run,
)
from tests.hostile.refused_calls import (
    MODES,
    Attempt,
    Shim,
    Trials,
    fault_of,
    judge,
    kind_of,
    places,
    plain_run,
    replays_in,
    room_of,
)
from tests.hostile.refused_servers import refuse_server
from tests.hostile.refused_tests import refuse_tests
from tests.program.program_cases import REFUSED_WORDS
from tests.support.counts import FailedCheckError, require

QUICK = 60
QUICK_SERVED = 40
MAX_SERVED = 2000
WORKERS = 8
OTHERS = [
    Command("help", ["--help"], "", None),
    Command("no command", ["rehears"], "", None),
]
# what commands print, as files of the examples or texts
WANTED = {
    "check": "first.checked",
    "rehearse": "first.printed",
    "built-in": "triangle.printed",
    "explain": "first.explained",
    "twin": "guess.twin",
    "recover": "first0.jsonl",
    "explore": "triangle.explored",
    "attest": "attested.printed",
}
CONTEST_TABLE = b"""\
  # team             outcome     moves lost
  1 red              solved         25    1
"""
WANTED_TEXTS = {
    "contest table": CONTEST_TABLE,
    "contest recover": CONTEST_TABLE,
    "judge": b"solved moves 13 lost 1\n",
    "appeal": b"solved moves 25 lost 1\n",
    "table": b"""\
  # team             outcome     moves lost
  1 red              solved         13    1
  2 blue             guess 1         0    0
""",
}


def attempt(
    trials: Trials, command: Command, mode: str = "", index: int = 0
) -> Attempt:
    """Runs a command in a folder of its own, with this call refused, or none."""
    numbers: Dict[str, int] = {}
    with room_of(trials.lab) as room, trials.shim.counting(
        numbers, mode, index
    ) as variables:
        run = plain_run(trials.lab, command.words, room, command.script, variables)
        replays = replays_in(room)
    return Attempt(run, replays, numbers)


def wheres(folder: pathlib.Path, command: Command, mode: str) -> Set[str]:
    """What a fault of this kind may name: files that the command reads, files that it
    writes, or a stream."""
    names = {*(word.rpartition("=")[2] for word in command.words), *command.beside}
    files = {name for name in names if (folder / name).is_file()}
    if any(name.endswith(".toml") for name in files):
        files |= {
            f"examples/{path.name}" for path in (folder / "examples").glob("*.toml")
        }
    writing = {
        "output",
        *(f"kept{number}.jsonl" for number in range(4) if "kept" in names),
    }
    reader = files | ({command.stdin} if command.script else set())
    made = (
        reader
        | writing
        | {"arena", *command.beside}
        | names & {"kept", "twin", "examples/appeal"}
    )
    return {"read": reader, "write": writing, "memory": made}[kind_of(mode)]


def is_untold(whole: Run, run: Run) -> bool:
    """Returns whether the runs differ in standard error alone, of which only a prefix
    was written."""
    return whole != run == run._replace(
        status=whole.status, stdout=whole.stdout
    ) and whole.stderr.startswith(run.stderr)


def outcome(
    mode: str,
    may_name: Set[str],
    whole: Attempt,
    attempt: Attempt,
    accepts: Callable[[bytes], bool],
) -> str:
    """What came of a run with a call refused."""
    run = attempt.run
    require(attempt.numbers["refused"] == 1, "the call was not made")
    if attempt.did_as(whole):
        return "as ever"
    errors = f"status {run.status}, `{run.stderr.strip()[:200]}`"
    require(
        not mode.startswith("short"),
        f"a short call made a difference: {errors}, {len(run.stdout)} bytes printed",
    )
    require(
        whole.run.stdout.startswith(run.stdout),
        f"another text was printed: {errors}, `{run.stdout[-200:]!r}`",
    )
    for name, text in attempt.replays.items():
        if text != whole.replays.get(name) and accepts(text):
            raise FailedCheckError(f"{name} is the replay of another match: {errors}")
    if (
        mode == "write"
        and attempt.replays == whole.replays
        and is_untold(whole.run, run)
    ):
        return "untold"
    where = fault_of(mode, run)
    require(where in may_name, f"it names another place: {errors}")
    if where.startswith("kept") and run.stdout != whole.run.stdout:
        raise FailedCheckError(f"a replay keeps back what is printed: {errors}")
    return mode


def wanted_fault(
    lab: Lab, command: Command, plain: Run, whole: Attempt
) -> Optional[str]:
    """What is wrong with a run of a command with nothing refused, beside one without
    the library."""
    examples = lab.folder / "examples"
    expectation = WANTED_TEXTS.get(command.name, plain.stdout)
    if command.name in WANTED:
        expectation = (examples / WANTED[command.name]).read_bytes()
    if plain != whole.run:
        return "the library makes a difference"
    if plain.status != (REFUSED_WORDS if command in OTHERS[1:] else DONE):
        return f"status {plain.status}, `{plain.stderr.strip()[:200]}`"
    if plain.stdout != expectation:
        return f"another text was printed: `{plain.stdout[-200:]!r}`"
    record = whole.replays.get("kept0.jsonl")
    first = (lab.folder / WHOLE_OF_PART).read_bytes()
    if command.name in ("rehearse", "interactive") and record != first:
        return "its replay is not examples/first0.jsonl"
    return None


def refuse_command(trials: Trials, command: Command) -> None:
    """Runs a command with each call of each kind refused."""
    lab = trials.lab
    whole = attempt(trials, command)
    if not whole.numbers["memory"] or not whole.numbers["write"]:
        lab.faults.append(
            f"{command.name}: no call was counted; is the program linked dynamically?"
        )
    accepts = functools.lru_cache()(lambda text: judge(lab, text) is not None)
    for mode in MODES:
        number = whole.numbers[kind_of(mode)]
        may_name = wheres(lab.folder, command, mode)
        trials.alike(
            lambda index: outcome(
                mode, may_name, whole, attempt(trials, command, mode, index), accepts
            ),
            places(number, trials.limit),
            f"{command.name}, {mode} of {number}",
            f"{command.name}, {mode}",
        )


# what finishes a contest of one match, and the replay and the turns that it is to make
# of the match's parts
RECOVERY = ["recover", "examples/appeal.toml", "--replay", "kept"]
RECOVERED = ("appeal0.jsonl", "appeal0.turns")


def recover_twice(
    trials: Trials, numbers: Dict[str, int], mode: str = "", index: int = 0
) -> str:
    """Finishes a contest with this call refused, or none: the replay and the turns are
    whole, or their parts are there. Then finishes it with nothing refused."""
    lab = trials.lab
    whole, timed_value = (
        (lab.folder / "examples" / name).read_bytes() for name in RECOVERED
    )
    with room_of(lab) as room:
        replay = room / "kept0.jsonl"
        part = room / "kept0.jsonl.part"
        turns = room / "kept0.turns"
        part_of_turns = room / "kept0.turns.part"
        part.write_bytes(b"".join(whole.splitlines(keepends=True)[:-2]))
        part_of_turns.write_bytes(timed_value)
        with trials.shim.counting(numbers, mode, index) as variables:
            first = plain_run(lab, RECOVERY, room, variables=variables)
        if not (replay.read_bytes() == whole if replay.exists() else part.exists()):
            raise FailedCheckError(
                f"status {first.status}, and the match is lost: {os.listdir(room)}"
            )
        if not (
            turns.read_bytes() == timed_value
            if turns.exists()
            else part_of_turns.exists()
        ):
            raise FailedCheckError(
                f"status {first.status}, and the turns are lost: {os.listdir(room)}"
            )
        is_finished = (
            first.stdout == CONTEST_TABLE and replay.exists() and turns.exists()
        )
        if not (is_finished if first.status == DONE else first.stderr):
            raise FailedCheckError(
                f"status {first.status}, printed `{first.stdout[-200:]!r}`"
            )
        again = plain_run(lab, RECOVERY, room)
        if (
            again != Run(DONE, CONTEST_TABLE, "")
            or replay.read_bytes() != whole
            or turns.read_bytes() != timed_value
        ):
            raise FailedCheckError(
                f"once more: status {again.status}, `{again.stderr.strip()[:200]}`"
            )
    return "finished at once" if first.status == DONE else "finished once more"


def refuse_recovery(trials: Trials) -> None:
    """Finishes a contest with each call of each kind refused."""
    numbers: Dict[str, int] = {}
    recover_twice(trials, numbers)
    for mode in MODES:
        number = numbers[kind_of(mode)]
        trials.alike(
            lambda index: recover_twice(trials, {}, mode, index),
            places(number, trials.limit),
            f"a contest that is finished, {mode} of {number}",
            f"a contest that is finished, {mode}",
        )


def try_command(trials: Trials, command: Command) -> None:
    """Runs a command with nothing refused, and then with each request refused."""
    plain = plain_run(trials.lab, command.words, trials.lab.folder, command.script)
    fault = wanted_fault(trials.lab, command, plain, attempt(trials, command))
    trials.lab.faults += (
        [f"{command.name} with nothing refused: {fault}"] if fault else []
    )
    refuse_command(trials, command)


def main() -> int:
    parser = argparse.ArgumentParser(
        description=__doc__, formatter_class=argparse.RawDescriptionHelpFormatter
    )
    parser.add_argument("program", metavar="PROGRAM")
    parser.add_argument("tests", metavar="TESTS", nargs="?")
    parser.add_argument("--quick", action="store_true")
    parser.add_argument(
        "--workers",
        metavar="N",
        type=int,
        default=WORKERS,
        help="runs at the same time (%(default)s)",
    )
    args = parser.parse_args()
    if not shutil.which("gcc"):
        sys.exit("there is no gcc")
    limit, most_served = (QUICK, QUICK_SERVED) if args.quick else (0, MAX_SERVED)
    with tempfile.TemporaryDirectory() as name:
        lab = Lab(args.program, pathlib.Path(name))
        trials = Trials(lab, Shim.built(lab.folder), limit, most_served, args.workers)
        for command in (*COMMANDS, *OTHERS):
            # on threads, memory is not asked for in the same order each time
            if command.name != ALL_HOLES:
                lab.part(try_command, trials, command)
        lab.part(refuse_recovery, trials)
        lab.part(refuse_server, trials)
        if args.tests:
            lab.part(refuse_tests, trials, args.tests)
    return lab.conclude()


if __name__ == "__main__":
    sys.exit(main())
