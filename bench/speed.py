"""Measures how many steps a second the lab plays.

    /usr/bin/python3 -m bench.speed [--rounds N] [--program PATH]

A step is one choice of a scheduler: an agent is answered, arrives or wakes. Two agents
search a ring of 64 nodes under slow-agents. A line for each engine and each kind of
player has the median of the rounds. A last line says how many states a second `explore`
visits on a ring of 7 nodes. Other work on the machine slows it down.
"""
import argparse
import statistics
import sys
import time
from typing import Callable, Dict, List, Optional

from arena_lab import with_one_order
from arena_lab.command_line.arguments import add_program, at_least_one
from arena_lab.play import schedulers
from arena_lab.play.agent_files import AGENTS
from arena_lab.play.kept_matches import engine_of
from arena_lab.play.matches import play
from arena_lab.play.schedules import schedule_of
from arena_lab.play.teams import INSIDE, OUTSIDE, AgentWords, Game, Together
from arena_lab.rules.engines import name_of, program_at
from arena_lab.rules.fixtures import Fixture, fixture_of
from arena_lab.rules.model import Setup
from arena_lab.rules.networks import ring
from arena_lab.search import model_search
from arena_lab.support.progress import bar

AGENT = AGENTS / "ring.py"
NODES = 64
HOLE = 20
SMALL = 7
ROUNDS = 5
TEAMS = {
    "agents inside the lab": AgentWords(INSIDE, f"{AGENT} {{nodes}}"),
    "programs over loopback": AgentWords(
        OUTSIDE, f"{sys.executable} {AGENT} {{host}} {{port}} {{key}} {NODES}"
    ),
}


def on_ring(nodes: int, hole: int) -> Fixture:
    return fixture_of(Setup(nodes, ring(nodes).links, 0, [hole], 2, 1000, 64))


def steps(agent: AgentWords, program: Optional[str], seed: int) -> int:
    """Plays one match, and gives how many steps it had."""
    fixture = on_ring(NODES, HOLE)
    engine = engine_of(schedule_of(fixture, [agent] * 2, "speed", []), program)
    return len(
        play(
            engine,
            Together([agent] * 2, fixture, 5),
            schedulers.slow_agents(seed),
            fixture,
        ).choices
    )


def states() -> int:
    """Explores a ring, and gives how many states it has."""
    game = Game(
        f"ring:{SMALL}",
        ring(SMALL),
        [TEAMS["agents inside the lab"]] * 2,
        holes=[SMALL // 2],
        board=64,
    )
    with bar(None, "state") as progress:
        return sum(
            match.explorer.states()
            for match in model_search.explore_matches(
                game, model_search.MAX_STATES, progress
            )
        )


def rate(count: Callable[[int], int], rounds: int) -> int:
    """Returns how many a second, the median of the rounds."""
    rates: List[float] = []
    for seed in range(rounds):
        start = time.perf_counter()
        rates.append(count(seed) / (time.perf_counter() - start))
    return round(statistics.median(rates))


def main() -> int:
    parser = argparse.ArgumentParser(
        "python3 -m bench.speed",
        description=__doc__,
        formatter_class=argparse.RawDescriptionHelpFormatter,
    )
    parser.add_argument(
        "--rounds",
        metavar="N",
        type=at_least_one,
        default=ROUNDS,
        help="how often to measure each " f"({ROUNDS})",
    )
    add_program(parser)
    words = parser.parse_args()
    program_path = program_at(words.program)
    engines: Dict[str, Optional[str]] = {
        "the Python model": None,
        name_of(program_path): program_path,
    }
    for engine, program in engines.items():
        for team, agent in TEAMS.items():
            rates = rate(lambda seed: steps(agent, program, seed), words.rounds)
            print(f"{engine}, {team}: {rates} steps a second", flush=True)
    print(f"explore: {rate(lambda seed: states(), words.rounds)} states a second")
    return 0


if __name__ == "__main__":
    with_one_order()
    sys.exit(main())
