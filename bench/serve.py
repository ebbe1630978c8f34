"""Times `arena serve` beside echo servers in C.

    tools/build               # proves and builds the program, if that is not done yet
    python3 -m bench.serve [--rounds N] [--active A,B,..] [--part N] [--open N]

Compiles bench/c/load.c, which plays the clients, and bench/c/echo.c, which answers
their lines by lines like those of the arena, with a thread for each connection. Each
load is looks, moves or writes, by 1, 16 and 256 sessions at a time, `one` command after
the other or as `many` in one go as a session sends. It runs on the arena and on the
echo in turn, three times each (--rounds), on a new arena each time, and the median is
printed: commands a second, the arena's rate divided by the echo's, and in the mode
`one` the median and 99th percentile of the answer times in microseconds. A line is
printed when its load is done.

- A session sends fewer than 1000 commands, as its quota is; when it has sent them, the
  next one begins. All of them have entered before the clock starts. --part 10 measures
  a tenth of the commands.
- Sessions that are active at the same time are of different matches as far as there are
  matches, which is 64, and write on whiteboards of their own, the two texts of 64 bytes
  in turn.
- The echo sends the answers to all lines that it has read by one write. In the mode
  `many` an echo that writes each answer by itself is timed as well: its rate stands
  under `each`.
- A move is answered `gone` at once, and its answer time is the time to that. The next
  move waits for the arrival, so the arena's rate of moves is bounded by turns: one
  arrival in each match every millisecond. The echo has no turns.

At last the peak memory of new servers is printed with 1024 sessions open (--open) that
have entered and looked once, and whether the rate of looks is what is wanted: one by
one at least half of the echo's, many at once at least a fifth. The exit status is 1 if
something could not be measured; it says nothing of the figures. ARENA in the
environment names another program than ./arena, as ARENA="./arena-lab". It takes about
two minutes.
"""
import argparse
import json
import os
import pathlib
import statistics
import subprocess
import sys
import tempfile
from typing import Dict, List, NamedTuple, Optional

from arena_lab.rules.networks import text_of, torus
from arena_lab.support.built import TOP
from arena_lab.support.ports import free_port
from bench.inputs import key, peak_so_far, tournament
from bench.servers import MAX_SESSIONS, prepare, serving
from tests.support.counts import FailedCheckError, require
from tests.support.servers import Server

SOURCES = TOP / "bench" / "c"
MATCHES = 64
AGENTS = MAX_SESSIONS // MATCHES
SIDE = 4
BOARD = 64
KINDS = ["looks", "moves", "writes"]
ACTIVE = [1, 16, 256]
ROUNDS = 3
# a quota is 1000, and what comes before the clock starts uses some of it
MAX_COMMANDS = 990
# how many commands are measured for each of up to four active sessions; moves are
# bounded by turns
TOTALS = {"one": 20_000, "many": 200_000}
MOVES = 600
# writers first walk to whiteboards of their own
BOARDS = 4
# milliseconds before each turn: lookers need none, writers need some before the clock
# starts
PAUSES = {"looks": 1000, "writes": 20, "moves": 1}
MATCH_SECONDS = 600
LIMIT = 60
# a run gives up once it could not measure this many loads
MAX_FAILED = 3
EXPECTED_RATIOS = {"one": 0.5, "many": 0.2}


class Load(NamedTuple):
    """A load: what is sent, in which mode, how many sessions are active at a time, how
    many there are in all, and how many commands each of them sends."""

    kind: str
    mode: str
    active: int
    sessions: int
    commands: int

    @property
    def title(self) -> str:
        return f"{self.kind} {self.mode}, {self.active} at a time"


class Figures(NamedTuple):
    """Commands a second, and the median and the 99th percentile of the answer times in
    microseconds."""

    rate: float
    p50: float
    p99: float


class Bench(NamedTuple):
    """A folder with the programs and the tournament."""

    folder: pathlib.Path

    @classmethod
    def build(cls, folder: pathlib.Path) -> "Bench":
        """Compiles the programs, and writes the tournament."""
        for name in ("load", "echo"):
            flags = ["-O2", "-Wall", "-Wextra", "-pthread"]
            subprocess.run(
                ["cc", *flags, "-o", str(folder / name), str(SOURCES / f"{name}.c")],
                check=True,
            )
        (folder / "torus.toml").write_text(text_of(torus(SIDE, SIDE)))
        (folder / "cup.toml").write_text(
            tournament(str(folder / "torus.toml"), MATCHES, AGENTS, BOARD)
        )
        return cls(folder)

    def echo(self, mode: str) -> Server:
        """An echo server."""
        port = free_port()
        return Server(
            [self.folder / "echo", port, mode], port=port, errors=self.folder / "errors"
        )

    def words_of_load(self, port: int, load: Load) -> List[str]:
        threads = min(load.active, max(1, (os.cpu_count() or 1) // 2))
        words = [
            self.folder / "load",
            port,
            load.kind,
            load.mode,
            load.active,
            load.commands,
            threads,
        ]
        return [str(word) for word in words]

    def figures(self, port: int, load: Load) -> Figures:
        """Loads a server."""
        result = subprocess.run(
            self.words_of_load(port, load),
            input=keys(load),
            capture_output=True,
            text=True,
            timeout=LIMIT,
        )
        require(result.returncode == 0, result.stderr.strip())
        result_values = json.loads(result.stdout)
        return Figures(
            result_values["commands"] / result_values["seconds"],
            result_values["p50"],
            result_values["p99"],
        )

    def arena(self, load: Load) -> Server:
        """A new arena."""
        pause = PAUSES[load.kind]
        return serving(self.folder, load.sessions, MATCH_SECONDS * 1000 // pause, pause)

    def of_arena(self, load: Load) -> Figures:
        """Loads a new arena."""
        with self.arena(load) as server:
            return self.figures(server.port, load)

    def peaks(self, server: Server, load: Load) -> List[int]:
        """The peak memory of a server in KiB, before anybody has come and while all
        sessions are open."""
        with server:
            before = peak_so_far(server.child)
            holder = subprocess.Popen(
                self.words_of_load(server.port, load),
                stdin=subprocess.PIPE,
                stdout=subprocess.PIPE,
                text=True,
            )
            try:
                # it reads all keys before it connects, and prints one line or none
                holder.stdin.write(keys(load))
                holder.stdin.close()
                require(
                    holder.stdout.readline() == "open\n",
                    "the sessions could not be opened",
                )
                return [before, peak_so_far(server.child)]
            finally:
                holder.kill()
                holder.wait()
                holder.stdout.close()


def load_of(kind: str, mode: str, active: int, part: int) -> Load:
    """The load of this kind: as many sessions and commands as make up what is to be
    measured."""
    if kind == "moves":
        agents = -(-active // MATCHES)
        return Load(kind, mode, active, active, max(1, MOVES // agents // part))
    total = TOTALS[mode] * min(active, 4) // part
    rounds = max(1, min(-(-total // (MAX_COMMANDS * active)), MAX_SESSIONS // active))
    sessions = rounds * active
    # an even number leaves each whiteboard as it was
    commands = min(MAX_COMMANDS, max(2, total // sessions // 2 * 2))
    return Load(kind, mode, active, sessions, commands)


def keys(load: Load) -> str:
    """A line for each session: its key, and how many steps its agent goes first."""
    lines = []
    for session in range(load.sessions):
        agent, game = divmod(session, MATCHES)
        steps = agent % BOARDS if load.kind == "writes" else 0
        lines.append(f"{key(game, agent)} {steps}\n")
    return "".join(lines)


def median(figures: List[Figures]) -> Figures:
    """The median of each figure."""
    return Figures(*(statistics.median(column) for column in zip(*figures)))


HEAD = (
    f"{'kind':<7}{'mode':<5}{'sessions':>8}{'commands':>10}{'arena/s':>11}{'echo/s':>11}{'ratio':>7}{'each/s':>11}"
    f"{'ratio':>7}{'arena p50':>11}{'p99':>9}{'echo p50':>10}{'p99':>9}"
)


def row(load: Load, figures: Dict[str, Figures]) -> str:
    """Returns the row of a load, without the servers that were not timed."""
    arena = figures["arena"]
    echo = figures["all"]
    each = figures.get("each")
    line = f"{load.kind:<7}{load.mode:<5}{load.active:>8}{load.sessions * load.commands:>10}{arena.rate:>11.0f}"
    line += f"{echo.rate:>11.0f}{arena.rate / echo.rate:>7.3f}"
    if each:
        return line + f"{each.rate:>11.0f}{arena.rate / each.rate:>7.3f}"
    return (
        line
        + f"{'':18}{arena.p50:>11.1f}{arena.p99:>9.1f}{echo.p50:>10.1f}{echo.p99:>9.1f}"
    )


def measure(
    bench: Bench, load: Load, echoes: Dict[str, int], rounds: int
) -> Dict[str, Figures]:
    """The medians of a load on each server."""
    modes = [mode for mode in echoes if load.mode == "many" or mode == "all"]
    figures: Dict[str, List[Figures]] = {server: [] for server in ("arena", *modes)}
    for _ in range(rounds):
        figures["arena"].append(bench.of_arena(load))
        for mode in modes:
            figures[mode].append(bench.figures(echoes[mode], load))
    return {server: median(figures) for server, figures in figures.items()}


def verdict(load: Load, figures: Dict[str, Figures]) -> Optional[str]:
    """Returns the line that compares the rate of a load with the required ratio; None
    if nothing is required."""
    if load.kind != "looks":
        return None
    ratio = figures["arena"].rate / figures["all"].rate
    holds = "holds" if ratio >= EXPECTED_RATIOS[load.mode] else "does not hold"
    return f"{load.title}: {ratio:.3f} of the echo's rate, at least {EXPECTED_RATIOS[load.mode]} wanted: {holds}"


def memory(bench: Bench, count: int) -> List[str]:
    """The peak memory of both servers with this many sessions open."""
    load = Load("looks", "hold", 1, count, 1)
    lines = []
    for name, start in (
        ("arena", lambda: bench.arena(load)),
        ("echo", lambda: bench.echo("all")),
    ):
        before, peak = bench.peaks(start(), load)
        lines.append(
            f"{name}: peak {peak} KiB with {count} sessions open, {before} KiB before, "
            f"{(peak - before) / count:.1f} KiB a session"
        )
    return lines


def run(bench: Bench, loads: List[Load], rounds: int, count: int) -> int:
    """Runs all loads, and prints what was found; answers how much could not be
    measured."""
    failures = 0
    verdicts = []
    print(HEAD, flush=True)
    with bench.echo("all") as together, bench.echo("each") as apart:
        for load in loads:
            if failures == MAX_FAILED:
                return failures
            try:
                figures = measure(
                    bench, load, {"all": together.port, "each": apart.port}, rounds
                )
            except (FailedCheckError, subprocess.TimeoutExpired) as fault:
                print(f"{load.title}: could not be measured: {fault}", flush=True)
                failures += 1
                continue
            print(row(load, figures), flush=True)
            verdicts.append(verdict(load, figures))
    try:
        verdicts = memory(bench, count) + verdicts
    except FailedCheckError as fault:
        print(f"memory could not be measured: {fault}")
        failures += 1
    print("\n".join(verdict for verdict in verdicts if verdict))
    return failures


def main() -> int:
    parser = argparse.ArgumentParser(
        description=__doc__, formatter_class=argparse.RawDescriptionHelpFormatter
    )
    parser.add_argument("--rounds", metavar="N", type=int, default=ROUNDS)
    parser.add_argument(
        "--active", metavar="A,B,..", default=",".join(map(str, ACTIVE))
    )
    parser.add_argument("--part", metavar="N", type=int, default=1)
    parser.add_argument("--open", metavar="N", type=int, default=MAX_SESSIONS)
    args = parser.parse_args()
    if min(args.rounds, args.part, args.open) < 1 or args.open > MAX_SESSIONS:
        parser.error(
            f"numbers begin with 1, and at most {MAX_SESSIONS} sessions are open"
        )
    active = [int(word) for word in args.active.split(",")]
    if any(count < 1 or MATCHES * BOARDS % count for count in active):
        parser.error("--active takes powers of two up to 256")
    prepare(2 * MAX_SESSIONS)
    loads = [
        load_of(kind, mode, count, args.part)
        for kind in KINDS
        for mode in TOTALS
        for count in active
    ]
    with tempfile.TemporaryDirectory() as name:
        return (
            1
            if run(Bench.build(pathlib.Path(name)), loads, args.rounds, args.open)
            else 0
        )


if __name__ == "__main__":
    sys.exit(main())
