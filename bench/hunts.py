"""Counts the schedules after which `hunt` and `run` find that a wrong agent fails.

    /usr/bin/python3 -m bench.hunts [--seeds N] [--most N] [NAME ..]

Plays each agent of examples/agents/faulty on the network on which `tests.support.mutants`
hunts it. For each seed (--seeds) it counts the schedules of a hunt up to the first
after which the team fails, and those of `run`, which begins with the hunt's first draw
and is given up after --most. A row has the median and the most of each. The exit status
is 1 if a hunt took more schedules than `run`. The Python model plays, so nothing needs
to be built.
"""
import argparse
import sys
from statistics import median
from typing import List, Optional, Sequence

from arena_lab.play.games import play_seed
from arena_lab.play.teams import INSIDE, AgentWords, Game, fill_team
from arena_lab.rules import draws, networks
from arena_lab.search.hunts import DRAWS, Hunt, Hunter, run_hunter
from tests.support.mutants import PLANS, agent_of

SEEDS = 10
MAX_RUNS = 400


def game_of(name: str) -> Game:
    """The game on which a wrong agent is hunted."""
    plan = PLANS[name].hunt_plan
    agents = fill_team([AgentWords(INSIDE, agent_of(name))], plan.agents)
    network = networks.network_named(plan.network)
    return Game(plan.network, network, agents, ports=draws.ports_of(plan.ports))


class UntilFailure:
    """A bar that ends a hunt once the team has failed."""

    def __init__(self) -> None:
        self.hunter: Optional[Hunter] = None

    def update(self) -> None:
        if self.hunter is not None and self.hunter.failed_at is not None:
            raise KeyboardInterrupt

    def set_postfix_str(self, text: str) -> None:
        """Shows nothing."""


def hunts(name: str, seed: int) -> Optional[int]:
    """After how many schedules a hunt finds that the team fails; None if it does
    not."""
    until_failure = UntilFailure()
    until_failure.hunter = Hunter(Hunt(game_of(name), seed=seed), until_failure)
    run_hunter(until_failure.hunter)
    return until_failure.hunter.failed_at


def runs(name: str, seed: int, limit: int) -> Optional[int]:
    """After how many schedules `run` finds that the team fails; None if not within this
    number."""
    game = game_of(name)
    first_failure = (
        count
        for count in range(1, limit + 1)
        if play_seed(game, "fair", seed * DRAWS + count - 1, None).has_failed
    )
    return next(first_failure, None)


def cells(counts: Sequence[Optional[int]], limit: int) -> List[str]:
    """The median and the most of some counts."""
    counts_or_limit = [limit + 1 if count is None else count for count in counts]
    return [
        f"more than {limit}" if count > limit else f"{count:g}"
        for count in (median(counts_or_limit), max(counts_or_limit))
    ]


def main(words: Sequence[str]) -> int:
    parser = argparse.ArgumentParser(
        prog="python3 -m bench.hunts",
        description=__doc__,
        formatter_class=argparse.RawDescriptionHelpFormatter,
    )
    parser.add_argument(
        "names", metavar="NAME", nargs="*", help="which of them; all by default"
    )
    parser.add_argument(
        "--seeds",
        type=int,
        default=SEEDS,
        metavar="N",
        help="how many seeds (%(default)s)",
    )
    parser.add_argument(
        "--most",
        type=int,
        default=MAX_RUNS,
        metavar="N",
        help="after how many schedules `run` is given up (%(default)s)",
    )
    args = parser.parse_args(words)
    print(
        "| agent | network | hunt: median | hunt: most | run: median | run: most |\n"
        "| --- | --- | --- | --- | --- | --- |"
    )
    is_behind = False
    for name in args.names or sorted(PLANS):
        by_hunt = [hunts(name, seed) for seed in range(args.seeds)]
        by_run = [runs(name, seed, args.most) for seed in range(args.seeds)]
        is_behind |= any(
            (hunt or args.most + 1) > (run or args.most + 1)
            for hunt, run in zip(by_hunt, by_run)
        )
        print(
            f"| `{name}` | {PLANS[name].hunt_plan.network} | "
            f"{' | '.join(cells(by_hunt, args.most) + cells(by_run, args.most))} |",
            flush=True,
        )
    return int(is_behind)


if __name__ == "__main__":
    sys.exit(main(sys.argv[1:]))
