"""Kills servers at drawn moments, and looks for what they have left.

    python3 -m tests.program.killed_servers PROGRAM [--kills N] [--seed S]

PROGRAM is the built program. Each time `serve` is started on two matches in a temporary
folder; an agent of each looks or goes on to the next node again and again, and the
server is killed by SIGKILL. Every other contest is so short that the kill may come
while the replays are written. Then of each match:

- If a file has the name of the replay, it is one whole replay.
- Otherwise `arena recover` makes a replay of the part.
- It has each event that an agent was answered more than two seconds before the kill.

And `arena recover T --replay P` prints the table of both: it writes the replays that
are missing, each the text that `arena recover` printed, and leaves those that were
there. Each match has turns then, with which its replay stands an appeal, and no part is
left.

By default there are 100 kills, several at the same time, which take a minute or two.
For each kill that leaves less a line is printed; the last line reads `N passed, M
failed`.
"""
import argparse
import concurrent.futures
import contextlib
import itertools
import json
import pathlib
import random
import socket
import subprocess
import sys
import tempfile
import threading
import time
from typing import Dict, List, NamedTuple, Optional

from arena_lab.rules.delays import Delays
from tests.support.counts import FailedCheckError, report_counts, require
from tests.support.servers import enter, serve, without_warning
from tests.support.session_lines import DEPART, GONE, LOOK
from tests.support.tournaments import TRIANGLE, match, write_cup

TEAMS = ["red", "blue"]
# seconds: how old an event is that must be there, and how long a short and a long
# contest are killed in at most
OLD = 2.0
SHORT = 0.6
LONG = 4.0
SHORT_TURNS = 50
LONG_TURNS = 1_000_000
PAUSE = 5
WORKERS = 8
PATIENCE = 30


class Kill(NamedTuple):
    """When a server is killed, in seconds after it listens, and how many turns its
    matches have."""

    after: float
    turns: int


class Client(threading.Thread):
    """An agent that enters, looks, and goes to and fro between its home base and the
    next node; and when it was answered."""

    def __init__(self, port: int, team: str) -> None:
        super().__init__(daemon=True)
        self.port = port
        self.team = team
        self.answered: List[float] = []

    def run(self) -> None:
        with contextlib.suppress(OSError), socket.create_connection(
            ("127.0.0.1", self.port)
        ) as client:
            answers = client.makefile("rb")
            for line in itertools.chain(
                [enter(f"{self.team}-0")], itertools.cycle([LOOK, LOOK, DEPART])
            ):
                client.sendall(line)
                if line == DEPART and answers.readline() != GONE:
                    return
                if not answers.readline().startswith(b'{"board"'):
                    return
                self.answered.append(time.monotonic())
                time.sleep(0.004)


def replay_of(program: str, folder: pathlib.Path, number: int) -> bytes:
    """The replay that the server has left of a match, or that is made of its part."""
    replay = folder / f"match{number}.jsonl"
    if replay.exists():
        return replay.read_bytes()
    result = subprocess.run(
        [program, "recover", f"{replay}.part"], capture_output=True, timeout=PATIENCE
    )
    require(not result.returncode, f"recover of match {number}: {result.stderr!r}")
    return result.stdout


def finish(program: str, folder: pathlib.Path) -> List[bytes]:
    """Finishes what the server has left; gives the replays."""
    replays = [replay_of(program, folder, number) for number in range(len(TEAMS))]
    result = subprocess.run(
        [program, "recover", "cup.toml", "--replay", "match"],
        cwd=folder,
        capture_output=True,
        timeout=PATIENCE,
    )
    if result.returncode or without_warning(result.stderr):
        raise FailedCheckError(f"recover: {result.stderr!r}")
    names = [f"match{number}.jsonl" for number in range(len(TEAMS))]
    require(
        replays == [(folder / name).read_bytes() for name in names],
        "recover has written other replays",
    )
    words = ["table", *(f"{team}={name}" for team, name in zip(TEAMS, names))]
    if (
        result.stdout
        != subprocess.run(
            [program, *words],
            cwd=folder,
            capture_output=True,
            check=True,
            timeout=PATIENCE,
        ).stdout
    ):
        raise FailedCheckError(f"recover has printed {result.stdout!r}")
    stand_appeals(program, folder)
    return replays


def appeal_to(number: int) -> List[str]:
    """The words of an appeal to a match of cup.toml, with the turns beside its
    replay."""
    return [
        "judge",
        f"match{number}.jsonl",
        "--turns",
        f"match{number}.turns",
        "--tournament",
        "cup.toml",
        "--match",
        str(number),
    ]


def stand_appeals(program: str, folder: pathlib.Path) -> None:
    """Each match that was recovered stands its appeal with its turns, and no part is
    left."""
    for number in range(len(TEAMS)):
        result = subprocess.run(
            [program, *appeal_to(number)],
            cwd=folder,
            capture_output=True,
            timeout=PATIENCE,
        )
        if result.returncode or not result.stdout:
            raise FailedCheckError(f"the appeal of match {number}: {result.stderr!r}")
    parts = sorted(path.name for path in folder.glob("match*.part"))
    require(not parts, f"recover has left {parts}")


def told_events(replay: bytes) -> int:
    """Returns how many commands stand in a replay."""
    events: List[Dict[str, object]] = [
        json.loads(line) for line in replay.splitlines()[1:]
    ]
    return sum(
        "agent" in event and event.get("do") not in (None, "deliver")
        for event in events
    )


def try_kill(program: str, kill: Kill, folder: pathlib.Path) -> None:
    """Serves a contest in this folder, kills the server, and looks at what it has
    left."""
    write_cup(
        folder,
        [match(team, TRIANGLE, [2], agents=1, board=8) for team in TEAMS],
        Delays(3, 8),
    )
    with serve(
        program,
        folder,
        turns=kill.turns,
        pause=PAUSE,
        grace=0,
        stderr=subprocess.DEVNULL,
    ) as server:
        clients = [Client(server.port, team) for team in TEAMS]
        for client in clients:
            client.start()
        time.sleep(kill.after)
        server.child.kill()
        end = time.monotonic()
    for client in clients:
        client.join(PATIENCE)
    for number, (client, replay) in enumerate(zip(clients, finish(program, folder))):
        result = told_events(replay)
        old = sum(moment < end - OLD for moment in client.answered)
        require(
            result >= old,
            f"match {number} has {result} commands, and {old} were answered {OLD} s before",
        )


def fault_of(program: str, kill: Kill) -> Optional[str]:
    with tempfile.TemporaryDirectory() as folder:
        try:
            try_kill(program, kill, pathlib.Path(folder))
        except Exception as error:
            return f"{type(error).__name__}: {error}"
    return None


def kills(count: int, seed: int) -> List[Kill]:
    """Kills that are drawn from a seed: short and long contests in turn."""
    rng = random.Random(seed)
    return [
        Kill(rng.uniform(0, LONG), LONG_TURNS)
        if number % 2
        else Kill(rng.uniform(0, SHORT), SHORT_TURNS)
        for number in range(count)
    ]


def main() -> int:
    parser = argparse.ArgumentParser(
        description=__doc__, formatter_class=argparse.RawDescriptionHelpFormatter
    )
    parser.add_argument("program", metavar="PROGRAM", type=pathlib.Path)
    parser.add_argument("--kills", metavar="N", type=int, default=100)
    parser.add_argument("--seed", metavar="S", type=int, default=1)
    args = parser.parse_args()
    program = str(args.program.resolve())
    draw = kills(args.kills, args.seed)
    with concurrent.futures.ThreadPoolExecutor(WORKERS) as pool:
        faults = list(pool.map(lambda kill: fault_of(program, kill), draw))
    for kill, fault in zip(draw, faults):
        if fault:
            print(f"killed after {kill.after:.3f} s of {kill.turns} turns: {fault}")
    failures = len([fault for fault in faults if fault])
    return report_counts(len(faults) - failures, failures)


if __name__ == "__main__":
    sys.exit(main())
