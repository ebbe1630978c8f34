"""Plays the sample agents under many drawn schedules. They are to survive all.

    /usr/bin/python3 -m tests.integration.endure [--runs N] [--seed S]

Two agents that know n search rings of n nodes, for n from 3 to 64. On the hypercube of
16 nodes, the torus of 5 rows and 5 columns, and 50 drawn networks there is one agent
more than the greatest degree. Two agents that have the map search all of these. Seeds
take the networks, the black holes and the schedulers in turn, and the Python model
plays. A line is printed for each match in which the team fails; the exit status is then
1. The last line reads `N passed, M failed`.
"""
import argparse
import itertools
import sys
from typing import List, NamedTuple

from arena_lab import with_one_order
from arena_lab.command_line.arguments import at_least_one
from arena_lab.play import schedulers
from arena_lab.play.agent_files import AGENTS
from arena_lab.play.matches import play
from arena_lab.play.teams import INSIDE, AgentWords, Together
from arena_lab.rules.fixtures import Fixture, fixture_of
from arena_lab.rules.model import Setup
from arena_lab.rules.networks import network_named
from arena_lab.rules.rehearsal import Rehearsal
from arena_lab.support.progress import along
from tests.support.counts import report_counts

RUNS = 10_000
RING = AgentWords(INSIDE, f"{AGENTS / 'ring.py'} {{nodes}}")
MAP = AgentWords(INSIDE, f"{AGENTS / 'map.py'} {{nodes}} {{links}}")
KNOWN_MAP = AgentWords(INSIDE, str(AGENTS / "known_map.py"))
QUOTA = 1000
BOARD = 4096


class Pairing(NamedTuple):
    """A network and the agent that searches it."""

    network: str
    agent: AgentWords


RINGS = [Pairing(f"ring:{nodes}", RING) for nodes in range(3, 65)]
OTHERS = [
    Pairing(name, MAP)
    for name in ("hypercube:4", "torus:5x5", *(f"random:{seed}" for seed in range(50)))
]
MAPPED = [Pairing(pairing.network, KNOWN_MAP) for pairing in [*RINGS, *OTHERS]]
PAIRINGS = [
    pairing
    for turn in itertools.zip_longest(RINGS, OTHERS, MAPPED)
    for pairing in turn
    if pairing
]


def fixture_for(pairing: Pairing, seed: int) -> Fixture:
    """The match of a seed."""
    network = network_named(pairing.network)
    agents = max(network.degrees()) + 1 if pairing.agent == MAP else 2
    home = seed % network.nodes
    hole = (home + 1 + seed // network.nodes % (network.nodes - 1)) % network.nodes
    return fixture_of(
        Setup(network.nodes, network.links, home, [hole], agents, QUOTA, BOARD)
    )


def fault_of(seed: int) -> str:
    """What is wrong with the match of a seed, or nothing."""
    pairing = PAIRINGS[seed % len(PAIRINGS)]
    names = sorted(schedulers.SCHEDULER_MAKERS)
    name = names[seed // len(PAIRINGS) % len(names)]
    turn = seed // len(PAIRINGS)
    fixture = fixture_for(pairing, turn)
    team = Together([pairing.agent] * fixture.setup.agents, fixture, 5)
    match = play(
        Rehearsal(fixture), team, schedulers.SCHEDULER_MAKERS[name](turn), fixture
    )
    if not match.has_failed():
        return ""
    return (
        f"seed {seed}, {pairing.network}, {name} {turn}, home {fixture.setup.home}, holes {fixture.setup.holes}: "
        f"{'; '.join([match.verdict().outcome, *match.faults])}"
    )


def main() -> int:
    parser = argparse.ArgumentParser(
        "python3 -m tests.integration.endure",
        description=__doc__,
        formatter_class=argparse.RawDescriptionHelpFormatter,
    )
    parser.add_argument(
        "--runs",
        metavar="N",
        type=at_least_one,
        default=RUNS,
        help=f"how many matches ({RUNS})",
    )
    parser.add_argument(
        "--seed", metavar="S", type=int, default=0, help="the first seed (0)"
    )
    words = parser.parse_args()
    faults: List[str] = []
    match_count = 0
    try:
        for seed in along(
            range(words.seed, words.seed + words.runs), words.runs, "match"
        ):
            fault = fault_of(seed)
            match_count += 1
            if fault:
                faults.append(fault)
                print(fault, flush=True)
    except KeyboardInterrupt:
        print("interrupted; until then:")
    print(f"played on {len({pairing.network for pairing in PAIRINGS})} networks")
    return report_counts(match_count - len(faults), len(faults))


if __name__ == "__main__":
    with_one_order()
    sys.exit(main())
