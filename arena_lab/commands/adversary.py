"""Plays the adversary of docs/PROTOCOLS.md against two agents on a ring: it makes every
team that finds the black hole move.

    ./arena-lab adversary --network ring:16 --agent "examples/agents/ring.py {nodes}"

The adversary lets one agent go on alone, then perhaps the other, and decides last which
node is the black hole. After each phase the command prints how many moves it has
forced, and how many nodes are new: nobody has reached them. It goes on until two are
new, makes one of them the black hole, and plays on until nothing can happen any more.
Every two agents that find the black hole of a ring of n nodes, wherever it is, come to
R (n - 2) + 1 moves, with R the least number such that 2^R >= n - 1: that is proved
(`bhs_protocols_bounds`).

A team that fails on the way is refuted: the command says why, and the exit status is 1.
The schedule is written to a folder, with a script, a replay and a page, as those of
`hunt`. Not every wrong team is refuted: `hunt` and `explore` look for other schedules.
The adversary chooses the black hole, whatever --hole says.
"""
import argparse
import pathlib
from typing import Optional

from arena_lab.command_line.arguments import add_engine, add_match, game_of, program_of
from arena_lab.play import kept_matches
from arena_lab.search.ring_adversary import Adversary, Arcs, BeatenError, Phase
from arena_lab.search.ring_bounds import least_moves


def add_arguments(parser: argparse.ArgumentParser) -> None:
    """Adds the arguments of `adversary`."""
    add_match(parser)
    parser.add_argument(
        "--keep",
        metavar="FOLDER",
        type=pathlib.Path,
        default=kept_matches.FOLDER,
        help=f"write the schedule there ({kept_matches.FOLDER})",
    )
    add_engine(parser)


def run(args: argparse.Namespace) -> int:
    program = program_of(args)
    adversary = Adversary(game_of(args))
    try:
        arcs = play_phases(adversary)
    except BeatenError as fault:
        return report_failure(adversary, fault, args.keep, program)
    return report_moves(adversary, arcs, args.keep, program)


def play_phases(adversary: Adversary) -> Arcs:
    """Plays all phases, and prints a line for each. Gives where the last one has
    led."""
    arcs = None
    for phase in adversary.phases():
        print(line_of(phase, arcs), flush=True)
        arcs = phase.arcs
    assert arcs is not None
    return arcs


def line_of(phase: Phase, before: Optional[Arcs]) -> str:
    """A phase in a line."""
    arcs = phase.arcs
    text = f"{arcs.moves} moves, {arcs.new} new nodes"
    if before is None:
        return f"{text}: the agents are on links to nodes {arcs.ends()[0]} and {arcs.ends()[1]}"
    way = f"{phase.back} of {before.arc_explored} explored nodes"
    return f"{text}: agent {phase.agent} came back over {way} and went on"


def report_failure(
    adversary: Adversary, fault: BeatenError, keep: pathlib.Path, program: Optional[str]
) -> int:
    """Says why the team fails, and keeps the schedule."""
    match, schedule = adversary.at_rest(fault.hole, fault.turns)
    print(
        f"the team fails with the black hole at node {fault.hole}: {fault.why}; {match.verdict()}"
    )
    kept_matches.keep(keep, schedule, program)
    return 1


def report_moves(
    adversary: Adversary, arcs: Arcs, keep: pathlib.Path, program: Optional[str]
) -> int:
    """Makes one of the last two nodes the black hole, with which the team moves more,
    and keeps the schedule."""
    ends = [adversary.at_rest(hole, arcs.turns) for hole in arcs.ends()]
    match, schedule = max(
        ends, key=lambda end: (end[0].has_failed(), end[0].verdict().moves)
    )
    print(
        f"{arcs.moves} moves were forced, and every two agents that find the black hole must make "
        f"{least_moves(adversary.nodes)} on this ring"
    )
    print(
        f"at rest with the black hole at node {schedule.fixture.setup.holes[0]}: {match.verdict()}"
    )
    kept_matches.keep(keep, schedule, program)
    return 1 if match.has_failed() else 0
