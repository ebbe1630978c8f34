"""Tries whether the lab catches wrong versions of the sample agents.

    /usr/bin/python3 -m tests.support.mutants [NAME ..] [--program PATH]

Each of examples/agents/faulty/*.py is a sample agent with one mistake, and its first
lines name it. `hunt` looks for a schedule after which the agent fails, and `explore`
tries all schedules of a small network. A line says for each mutant after how many schedules
and seconds `hunt` caught it, what the program's verdict was, and after how many states
`explore` caught it. The last line reads `N passed, M failed`: a mutant that one of them
does not catch has failed, and the exit status is 1 then.
"""
import argparse
import sys
import time
from typing import Dict, List, NamedTuple, Optional, Tuple

from arena_lab import api, with_one_order
from arena_lab.command_line.arguments import add_program
from arena_lab.play.agent_files import AGENTS
from arena_lab.rules.draws import DRAWN, GIVEN
from arena_lab.rules.engines import program_at
from arena_lab.rules.model import Verdict
from tests.support.counts import report_counts

FOLDER = AGENTS / "faulty"


class MutantMatch(NamedTuple):
    """Where a mutant must be caught: network, number of agents, and numbering of
    ports."""

    network: str
    agents: int = 2
    ports: str = GIVEN


class MutantPlan(NamedTuple):
    """A mutant's words, and the matches in which `hunt` and `explore` must catch it."""

    words: str
    hunt_plan: MutantMatch
    explore_plan: MutantMatch


def on_ring(exploration: int) -> MutantPlan:
    return MutantPlan(
        "{nodes}", MutantMatch("ring:8"), MutantMatch(f"ring:{exploration}")
    )


def on_numbered(exploration: str) -> MutantPlan:
    return MutantPlan(
        "{nodes}",
        MutantMatch("ring:8", ports=DRAWN),
        MutantMatch(exploration, ports=DRAWN),
    )


def on_cube(exploration: str, agents: int) -> MutantPlan:
    return MutantPlan(
        "{nodes} {links}",
        MutantMatch("hypercube:3", 4),
        MutantMatch(exploration, agents),
    )


PLANS: Dict[str, MutantPlan] = {
    "accuses_at_once": on_ring(4),
    "divides_unevenly": on_ring(6),
    "forgets_label": on_numbered("ring:4"),
    "forgets_to_mark": on_ring(4),
    "reads_once": on_ring(4),
    "counts_naps": on_cube("ring:3", 3),
    "counts_nodes_alone": on_cube("complete:4", 4),
    "overwrites": on_cube("ring:3", 3),
    "tosses_coin": on_numbered("ring:3"),
    "trusts_order": on_cube("complete:4", 4),
    "waits_for_the_lost": on_cube("ring:3", 3),
}


class Caught(NamedTuple):
    """What a command said of a mutant: whether it caught it, after how many tries and
    seconds, and the verdict."""

    is_caught: bool
    tries: int
    seconds: float
    verdict: Optional[Verdict]


def hunt(name: str, program: str) -> Caught:
    """What `hunt` finds of a mutant."""
    plan = PLANS[name]
    start = time.monotonic()
    position = plan.hunt_plan
    result = api.hunt(
        position.network,
        agent_of(name),
        count=position.agents,
        engine=program,
        ports=position.ports,
    )
    return Caught(
        result.fails, result.tried, time.monotonic() - start, result.best.judge()
    )


def explore(name: str) -> Caught:
    """What the Python model's search finds of a mutant, which takes less time than that
    of the program."""
    plan = PLANS[name]
    start = time.monotonic()
    result = api.explore(
        plan.explore_plan.network,
        agent_of(name),
        count=plan.explore_plan.agents,
        ports=plan.explore_plan.ports,
    )
    return Caught(
        result.fails,
        result.states,
        time.monotonic() - start,
        result.worst.judge() if result.worst else None,
    )


def agent_of(name: str) -> str:
    """The words that play a mutant."""
    return f"{FOLDER / name}.py {PLANS[name].words}"


def caught(name: str, program: str) -> Tuple[Caught, Caught]:
    """What `hunt` and `explore` find of a mutant."""
    return hunt(name, program), explore(name)


def line_of(name: str, hunt_result: Caught, exploration: Caught) -> str:
    result = (
        f"{hunt_result.tries} schedules, {hunt_result.seconds:.1f} s"
        if hunt_result.is_caught
        else "NOT CAUGHT"
    )
    trial = (
        f"{exploration.tries} states, {exploration.seconds:.1f} s"
        if exploration.is_caught
        else "NOT CAUGHT"
    )
    verdict = str(hunt_result.verdict or "")
    return f"{name:<20} hunt: {result:<24} {verdict:<28} explore {PLANS[name].explore_plan.network}: {trial}"


def main() -> int:
    parser = argparse.ArgumentParser(
        "python3 -m tests.support.mutants",
        description=__doc__,
        formatter_class=argparse.RawDescriptionHelpFormatter,
    )
    parser.add_argument(
        "names", metavar="NAME", nargs="*", help="which of them; all by default"
    )
    add_program(parser)
    words = parser.parse_args()
    names: List[str] = words.names or sorted(PLANS)
    unknown = set(names) - set(PLANS)
    if unknown:
        parser.error(
            f"there is no mutant {', '.join(sorted(unknown))}; there are {', '.join(sorted(PLANS))}"
        )
    program = program_at(words.program)
    remaining = 0
    for name in names:
        hunt_result, exploration = caught(name, program)
        print(line_of(name, hunt_result, exploration), flush=True)
        remaining += not (hunt_result.is_caught and exploration.is_caught)
    return report_counts(len(names) - remaining, remaining)


if __name__ == "__main__":
    with_one_order()
    sys.exit(main())
