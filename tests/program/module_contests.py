"""Serves contests to drawn modules, and requires what `explore` told of them.

    python3 -m tests.program.module_contests PROGRAM [COUNT] [--player PATH]

Each module is the sample module with one or two bytes of its code drawn anew; the first
is the sample itself. `explore --module` says what comes of every schedule of a match on
a small ring. Then a contest of 20 such matches is served, whose agents `bhs_player` runs
and which begin at drawn times, and a second one that is closed after drawn turns.

If every schedule solves the match, then each match of the first contest is solved within
the moves and lost agents that were told, and no match of the second is wrong or beyond
them. Of the other modules some must lose a match, or the contests would show nothing.
`attest` must attest each replay of a module that solves. An agent whose module fails has
left in the log, which the module did not say.

COUNT is how many modules play, 12 if it is not given, and PATH another `bhs_player` than
the one that is proved. The last line reads `N passed, M failed`, and the exit status is 1
if one failed.
"""
import argparse
import json
import pathlib
import random
import subprocess
import sys
import tempfile
import time
from typing import Any, Dict, List, NamedTuple, Optional, Sequence

from arena_lab.rules.networks import Network
from tests.support.counts import FailedCheckError, report_counts, require
from tests.support.matches import TOP, flipped_ring
from tests.support.servers import HOST, Server
from tests.support.tournaments import match, write_cup

PLAYER = TOP / "crates" / "bhs_player" / "out" / "bhs_player"
SAMPLE = TOP / "examples" / "agents" / "wasm" / "ring.wasm"
MATCHES = 20
# the most turns of a match in the first contest, one a millisecond, and in the second
TURNS = 30_000
FEW_TURNS = 60
# the most states of an exploration, and milliseconds before an agent's program begins
STATES = 20_000
LATEST = 150
# seconds within which a contest must end
PATIENCE = 120
# a module whose explorations end so says nothing of every schedule
FOUND = ("solves", "fails", "lasso", "breaks")


class Programs(NamedTuple):
    """The program under test, and the one that runs modules as agents."""

    arena: str
    player: str


class DrawnModule(NamedTuple):
    """A module, the ring and the black hole of its matches, and what `explore` found."""

    file: pathlib.Path
    network: Network
    hole: int
    found: Dict[str, Any]

    @property
    def solves(self) -> bool:
        return bool(self.found["found"] == "solves")

    @property
    def word(self) -> str:
        return f"{self.file}:{self.network.nodes}"


class Verdict(NamedTuple):
    """What `judge` prints of a match; the outcome has two words where it guesses."""

    outcome: str
    moves: int
    lost: int


def change_module(number: int, draw: random.Random) -> bytes:
    """The sample module; but for the first, one or two bytes in its second half, where
    its code is, are drawn anew."""
    module = bytearray(SAMPLE.read_bytes())
    for _ in range(draw.randrange(1, 3) if number else 0):
        module[draw.randrange(len(module) // 2, len(module))] = draw.randrange(256)
    return bytes(module)


def explore(
    programs: Programs, folder: pathlib.Path, number: int, draw: random.Random
) -> Optional[DrawnModule]:
    """Explores a mutated module. Returns None if the module is invalid or if the search
    was incomplete."""
    file = folder / f"drawn{number}.wasm"
    file.write_bytes(change_module(number, draw))
    network = flipped_ring(draw.choice((3, 4, 5)), draw)
    hole = draw.randrange(1, network.nodes)
    write_cup(folder, [match("red", network, [hole], quota=200, board=48)])
    words = ["explore", "cup.toml", "0", "--max-states", str(STATES)]
    result = subprocess.run(
        [programs.arena, *words, "--module", f"{file}:{network.nodes}"],
        cwd=folder,
        capture_output=True,
        text=True,
    )
    if not result.stdout:
        return None
    report: Dict[str, Any] = json.loads(result.stdout.splitlines()[0])
    return (
        DrawnModule(file, network, hole, report) if report["found"] in FOUND else None
    )


def judge(programs: Programs, folder: pathlib.Path, number: int) -> Verdict:
    words = [programs.arena, "judge", f"cup{number}.jsonl"]
    output = subprocess.run(
        words, cwd=folder, capture_output=True, text=True, check=True
    ).stdout
    outcome, moves, lost = (
        output.replace(" moves ", "|").replace(" lost ", "|").split("|")
    )
    return Verdict(outcome, int(moves), int(lost))


def require_attested(
    programs: Programs, folder: pathlib.Path, drawn_module: DrawnModule, number: int
) -> None:
    """Requires that the agents of a match did what their module says, and woke no more
    often than its search allows."""
    words = ["attest", f"cup{number}.jsonl", "--module", drawn_module.word]
    result = subprocess.run(
        [programs.arena, *words], cwd=folder, capture_output=True, text=True
    )
    require(result.returncode == 0, f"{drawn_module.word}: {result.stdout}")


def start_agents(
    programs: Programs,
    drawn_module: DrawnModule,
    keys: Sequence[str],
    port: int,
    draw: random.Random,
) -> List["subprocess.Popen[bytes]"]:
    """The agents' programs, which begin one after the other, in a drawn order."""
    processes = []
    for key in draw.sample(list(keys), len(keys)):
        time.sleep(draw.uniform(0, LATEST / 1000 / len(keys)))
        words = [programs.player, HOST, str(port), key, "--module", drawn_module.word]
        processes.append(subprocess.Popen(words, stderr=subprocess.DEVNULL))
    return processes


def serve(
    programs: Programs,
    folder: pathlib.Path,
    drawn_module: DrawnModule,
    turns: int,
    draw: random.Random,
) -> List[Verdict]:
    """The verdicts on the matches of a contest of this many turns."""
    games = [
        match(
            f"red{number}",
            drawn_module.network,
            [drawn_module.hole],
            quota=200,
            board=48,
        )
        for number in range(MATCHES)
    ]
    write_cup(folder, games)
    command = [programs.arena, "serve", "cup.toml", "--pause", 1, "--turns", turns]
    command += [
        "--sessions",
        2 * MATCHES,
        "--replay",
        "cup",
        "--gather",
        20_000,
        "--early",
    ]
    with Server(command, folder) as server:
        keys = [key for game in games for key in game.keys]
        processes = start_agents(programs, drawn_module, keys, server.port, draw)
        try:
            require(server.child.wait(PATIENCE) == 0, "the server failed")
        finally:
            for child in processes:
                child.kill()
                child.wait()
    for number in range(MATCHES if drawn_module.solves else 0):
        require_attested(programs, folder, drawn_module, number)
    return [judge(programs, folder, number) for number in range(MATCHES)]


def is_within(verdict: Verdict, values: Dict[str, Any]) -> bool:
    return verdict.moves <= values["moves"] and verdict.lost <= values["lost"]


def requires_the_law(
    programs: Programs,
    folder: pathlib.Path,
    drawn_module: DrawnModule,
    draw: random.Random,
) -> bool:
    """Plays both contests of a module. Whether it lost a match of the first."""
    verdicts = serve(
        programs, folder, drawn_module, TURNS if drawn_module.solves else 1000, draw
    )
    if not drawn_module.solves:
        return any(verdict.outcome != "solved" for verdict in verdicts)
    for verdict in verdicts:
        good = verdict.outcome == "solved" and is_within(verdict, drawn_module.found)
        require(good, f"{drawn_module.found} of a match with the verdict {verdict}")
    for verdict in serve(
        programs, folder, drawn_module, draw.randrange(FEW_TURNS), draw
    ):
        good = verdict.outcome != "wrong" and is_within(verdict, drawn_module.found)
        require(good, f"{drawn_module.found} of a match closed early, as {verdict}")
    return False


def main() -> int:
    words = argparse.ArgumentParser(
        description=__doc__, formatter_class=argparse.RawDescriptionHelpFormatter
    )
    words.add_argument("program")
    words.add_argument("count", nargs="?", type=int, default=12)
    words.add_argument("--player", default=PLAYER)
    args = words.parse_args()
    programs = Programs(
        *(str(pathlib.Path(it).resolve()) for it in (args.program, args.player))
    )
    count = args.count
    pass_count = failure_count = losers = rest = number = 0
    with tempfile.TemporaryDirectory(prefix="contests-") as name:
        folder = pathlib.Path(name)
        while pass_count + failure_count < count:
            draw = random.Random(f"module {number}")
            draws = explore(programs, folder, number, draw)
            number += 1
            if draws is None:
                continue
            try:
                rest += not draws.solves
                losers += requires_the_law(programs, folder, draws, draw)
                pass_count += 1
            except FailedCheckError as wrong:
                print(f"FAILED module {number - 1}: {wrong}", flush=True)
                failure_count += 1
            print(f"module {number - 1} {draws.found['found']}", flush=True)
    print(f"{count - rest} modules solve, {losers} of {rest} others lost a match")
    if rest and not losers:
        failure_count += 1
    return report_counts(pass_count, failure_count)


if __name__ == "__main__":
    sys.exit(main())
