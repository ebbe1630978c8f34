"""Attacks a server by clients that keep to no rule, while two others play their match.

    python3 -m tests.hostile.hostile_clients [--sessions N] [--attack each|silent|keys] [--quick]

Starts `./arena serve` on a tournament of four matches in a temporary folder, with N
sessions, or 1024 by default. Two polite clients play the first match from the first
attack to the last: on a ring of 8 nodes they walk to and fro, look and write, and then
accuse the black hole. The others attack (tests/hostile/hostile_attacks.py); those that
have a key attack in the second match. With `each`, the default, they attack in each way
in turn. With `silent` or `keys` as many clients as there are sessions left send nothing
or have wrong keys. A line for each attack says what was seen and the peak memory of the
server until then, a line for each check at the end says how it went, and the last line
counts. The exit status is 1 if one of these fails:

- Each attack is answered as docs/FORMATS.md says, and each answer comes within 2
  seconds. Clients that do not enter use up nothing: one that comes after twice N of
  them is let in. When answers are not read, the server soon takes no more lines.
- Once the matches have ended and all clients have gone, the server ends by itself
  within 15 seconds, with status 0; the sessions that never began do not hold it up.
- It never holds more than 64 MiB and 96 KiB for each session: 64 KiB for the longest
  line, the rest for its stack and what else a session has. The 64 MiB are for the
  program, the matches and their logs, and for the answers that nobody reads, which
  share the texts of whiteboards.
- It has written the replay of each match, which the Python model plays to the same
  replies.
- Each polite client was answered what the replay says, within 2 seconds each time, and
  their team solved its network.
- The agents of clients that vanished have left their match.
- The table is that of the verdicts on the replays.

ARENA in the environment names another program than ./arena: ARENA="./arena-lab" tries
it without the build. A run takes half a minute, and with --quick a third of that: its
matches and its attacks are shorter.
"""
import argparse
import contextlib
import functools
import pathlib
import sys
import tempfile
import threading
import time
from typing import Callable, Iterator, List, NamedTuple, Optional, Sequence

from arena_lab.rules.printed import table
from arena_lab.rules.limits import MAX_AGENTS, MAX_BOARD, MAX_QUOTA
from arena_lab.rules.model import ENDED, Match, judge, replay_match, spell
from arena_lab.rules.networks import ring, text_of
from bench.inputs import MIB, key, peak_of_child, peak_so_far, tournament
from bench.servers import MAX_SESSIONS, prepare, serving
from examples.agents.client import Agent, Lines, Refused
from tests.hostile.hostile_attacks import (
    ATTACKS,
    HOST,
    HOSTILE,
    LATER,
    PATIENCE,
    POLITE,
    PROMPT,
    STRANGER,
    Attack,
    Siege,
    Sizes,
    hear,
)
from tests.support.counts import FailedCheckError, report_counts, require
from tests.support.session_lines import DEPART, GONE, HERE, OVER

MATCHES = 4
NODES = 8
# the black holes of the polite and the hostile match; the polite clients go to the
# nodes before it
HOLES = [[4], [1]]
REACH = 3
BASE_KIB = 64 * 1024
EACH_KIB = 96
END = 15.0
LEAST_SESSIONS = LATER + 32
QUICK = Sizes(
    turns=900, between_bytes=0.3, between_steps=0.05, still=0.5, flood=4 * MIB
)
# enough for the attacks, the server and what Python needs
FILES = 2 * MAX_SESSIONS


class TimedLines(Lines):
    """Lines of a polite client: the answers that came, and how many seconds the slowest
    took."""

    def __init__(self, port: int) -> None:
        super().__init__(HOST, port)
        self._socket.settimeout(PATIENCE)
        self.answers: List[str] = []
        self.slowest = 0.0

    def receive(self) -> str:
        begin = time.monotonic()
        self.answers.append(super().receive())
        self.slowest = max(self.slowest, time.monotonic() - begin)
        return self.answers[-1]


class Polite(threading.Thread):
    """A client that keeps to the rules. It walks to and fro between the home base and
    the last node before the black hole on its side, looks and writes, until the attacks
    are over; then it goes there and accuses."""

    def __init__(self, siege: Siege, number: int) -> None:
        super().__init__(daemon=True)
        self.number = number
        self.between_steps = siege.sizes.between_steps
        self.lines = TimedLines(siege.port)
        self.agent = Agent(self.lines)
        self.agent.enter(key(POLITE, number))
        siege.sessions += 1
        self.attacks_are_over = threading.Event()
        self.fault: Optional[str] = None

    def run(self) -> None:
        try:
            self.play()
        except (Refused, ValueError, LookupError) as fault:
            self.fault = f"{type(fault).__name__}: {fault}"
        self.agent.close()

    def play(self) -> None:
        """One agent has the black hole ahead by port 0, the other by port 1. It keeps
        commands for its last way."""
        ahead = self.number
        back = 1 - self.number
        position = 0
        is_outward = True
        commands_used = 0
        while not self.attacks_are_over.wait(self.between_steps):
            if commands_used + 3 > MAX_QUOTA - REACH - 1:
                continue
            board = self.agent.look().board
            self.agent.write(
                board, f"agent {self.number} was here after {commands_used} commands"
            )
            is_outward = position == 0 or (is_outward and position < REACH)
            self.agent.depart(ahead if is_outward else back)
            position += 1 if is_outward else -1
            commands_used += 3
        for _ in range(REACH - position):
            self.agent.depart(ahead)
        self.agent.accuse(ahead)


class Witness:
    """A client whose agent is lost, so that it learns of the end of its match."""

    def __init__(self, siege: Siege) -> None:
        self.socket = siege.enter()
        self.socket.sendall(DEPART)
        hear(self.socket, HERE + GONE)
        self.longest = siege.sizes.turns * siege.sizes.pause / 1000 * 3 + PATIENCE

    def wait(self) -> bool:
        """Returns whether the match ends within a limit."""
        self.socket.settimeout(self.longest)
        with self.socket, contextlib.suppress(FailedCheckError):
            hear(self.socket, OVER, self.longest)
            return True
        return False


class Ending(NamedTuple):
    """How a server ended: whether its matches did, its status, the seconds that it took
    from then on, the most memory in KiB that it held, and what it printed."""

    is_over: bool
    status: int
    seconds: float
    peak: int
    stdout: str


def ending_of(siege: Siege, witness: Witness) -> Ending:
    """Waits for the end of the matches, lets all clients go, and waits a limited time
    for the end of the server."""
    is_over = witness.wait()
    siege.close()
    begin = time.monotonic()
    late = threading.Timer(END, siege.server.child.kill)
    late.start()
    peak = peak_of_child(siege.server.child)
    late.cancel()
    return Ending(
        is_over,
        siege.server.child.returncode,
        time.monotonic() - begin,
        peak,
        siege.server.child.stdout.read().decode(),
    )


@functools.lru_cache(maxsize=None)
def match_of(folder: pathlib.Path, number: int) -> Match:
    """The match that the server has written the replay of."""
    replay = folder / f"match{number}.jsonl"
    require(replay.exists(), f"match {number} has no replay")
    text = replay.read_text(encoding="utf-8")
    try:
        match = replay_match(text)
    except (ValueError, LookupError, TypeError) as fault:
        raise FailedCheckError(
            f"the replay of match {number} is none: {fault!r}"
        ) from fault
    require(
        match.replay() == text,
        f"the replay of match {number} is another when it is played anew",
    )
    return match


def check_end(ending: Ending) -> str:
    reply = f"status {ending.status}, {ending.seconds:.1f} s after its matches and its clients"
    require(ending.is_over, "the matches did not end")
    require(ending.status == 0, reply)
    return reply


def check_memory(ending: Ending, sizes: Sizes) -> str:
    bound = BASE_KIB + EACH_KIB * sizes.sessions
    text = f"{ending.peak} KiB of {bound} KiB: {BASE_KIB} KiB, and {EACH_KIB} KiB for each of {sizes.sessions} sessions"
    require(ending.peak <= bound, text)
    return text


def check_replays(matches: Sequence[Match]) -> str:
    return f"{len(matches)} of {sum(len(match.log) for match in matches)} events"


def check_polite(client: Polite, match: Match) -> None:
    """One polite client was answered what the replay says, and in time."""
    name = f"client {client.number}"
    require(not client.fault, f"{name}: {client.fault}")
    if client.lines.answers != [
        spell(event["reply"])
        for event in match.log
        if event.get("agent") == client.number
    ]:
        raise FailedCheckError(f"{name} was answered other lines than its replay has")
    require(
        client.lines.slowest <= PROMPT,
        f"an answer to {name} took {client.lines.slowest:.1f} s",
    )


def check_team(polite: Sequence[Polite], match: Match) -> str:
    for client in polite:
        check_polite(client, match)
    verdict = judge(match)
    if verdict.outcome != "solved" or verdict.lost:
        raise FailedCheckError(f"their team's verdict is {verdict}")
    count = sum(len(first.lines.answers) for first in polite)
    slowest = max(first.lines.slowest for first in polite)
    return f"{count} answers, the slowest after {slowest * 1000:.0f} ms; solved with {verdict.moves} moves"


def check_vanished(siege: Siege, match: Match) -> str:
    staying = [
        agent for agent in siege.vanished if match.agents[agent].standing != ENDED
    ]
    require(not staying, f"agents {staying} have not left")
    return f"{len(siege.vanished)} agents left when their clients were gone"


def check_stranger(folder: pathlib.Path) -> str:
    require(
        match_of(folder, HOSTILE).agents[STRANGER].standing == ENDED, "it has not left"
    )
    return "the client that came after all others entered and left"


def check_table(output: str, matches: Sequence[Match]) -> str:
    expectation = table(
        [(f"team-{number}", judge(match)) for number, match in enumerate(matches)]
    )
    require(output == expectation, f"it should be\n{expectation}and is\n{output}")
    return f"{len(matches)} rows, by the verdicts on the replays"


class Results:
    """How many attacks and checks there were, and how many of them failed."""

    def __init__(self) -> None:
        self.count = 0
        self.failed = 0

    def add(self, name: str, run: Callable[[], str]) -> None:
        """Runs one, and prints its line."""
        self.count += 1
        try:
            result = run()
        except Exception as fault:
            self.failed += 1
            result = f"WRONG: {type(fault).__name__}: {fault}"
        print(f"{name}: {result}", flush=True)


def attack(siege: Siege, attacks: Sequence[Attack], results: Results) -> None:
    """Runs the attacks in turn."""
    for attack in attacks:
        results.add(
            attack.__name__.replace("_", " "),
            lambda: f"{attack(siege)}; peak {peak_so_far(siege.server.child) / 1024:.1f} MiB",
        )


def check(
    siege: Siege,
    polite: Sequence[Polite],
    ending: Ending,
    folder: pathlib.Path,
    results: Results,
) -> None:
    """Checks the server's end and its files."""

    def all_matches() -> List[Match]:
        return [match_of(folder, number) for number in range(MATCHES)]

    results.add("end", lambda: check_end(ending))
    results.add("memory", lambda: check_memory(ending, siege.sizes))
    results.add("replays", lambda: check_replays(all_matches()))
    results.add("polite clients", lambda: check_team(polite, match_of(folder, POLITE)))
    results.add(
        "vanished clients", lambda: check_vanished(siege, match_of(folder, HOSTILE))
    )
    results.add("the client after all others", lambda: check_stranger(folder))
    results.add("table", lambda: check_table(ending.stdout, all_matches()))


@contextlib.contextmanager
def serve(sizes: Sizes, folder: pathlib.Path) -> Iterator[Siege]:
    """A server on a tournament in this folder."""
    (folder / "ring.toml").write_text(text_of(ring(NODES)))
    matches = tournament(
        str(folder / "ring.toml"), MATCHES, MAX_AGENTS, MAX_BOARD, 3, HOLES
    )
    (folder / "cup.toml").write_text(matches)
    with serving(
        folder, sizes.sessions, sizes.turns, sizes.pause, "--grace", 5000
    ) as server:
        yield Siege(server, sizes)


def besiege(sizes: Sizes, attacks: Sequence[Attack], folder: pathlib.Path) -> Results:
    """Has the polite match played under these attacks, and looks at what came of it."""
    results = Results()
    with serve(sizes, folder) as siege:
        polite = [Polite(siege, number) for number in range(2)]
        witness = Witness(siege)
        for client in polite:
            client.start()
        attack(siege, attacks, results)
        for client in polite:
            client.attacks_are_over.set()
        for client in polite:
            client.join()
        check(siege, polite, ending_of(siege, witness), folder, results)
    text = (folder / "errors").read_text()
    if text:
        print(f"on standard error the server wrote: {text.strip()}")
    return results


def main() -> int:
    parser = argparse.ArgumentParser(
        description=__doc__, formatter_class=argparse.RawDescriptionHelpFormatter
    )
    parser.add_argument(
        "--sessions",
        metavar="N",
        type=int,
        default=MAX_SESSIONS,
        help=f"{LEAST_SESSIONS} to {MAX_SESSIONS}",
    )
    parser.add_argument("--attack", choices=list(ATTACKS), default="each")
    parser.add_argument(
        "--quick", action="store_true", help="shorter matches and attacks"
    )
    args = parser.parse_args()
    if not LEAST_SESSIONS <= args.sessions <= MAX_SESSIONS:
        parser.error(f"--sessions takes {LEAST_SESSIONS} to {MAX_SESSIONS}")
    prepare(FILES)
    with tempfile.TemporaryDirectory() as name:
        try:
            sizes = (QUICK if args.quick else Sizes())._replace(sessions=args.sessions)
            results = besiege(sizes, ATTACKS[args.attack], pathlib.Path(name))
        except (Refused, FailedCheckError, OSError) as fault:
            raise SystemExit(
                f"hostile_clients: the attack could not begin: {fault}"
            ) from fault
    return report_counts(results.count - results.failed, results.failed)


if __name__ == "__main__":
    sys.exit(main())
