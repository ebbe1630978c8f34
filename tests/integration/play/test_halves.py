"""The agents that divide a ring into halves, and those of the shuttle, solve it within
the moves of the theorems."""
import random
import unittest
from typing import Any, Callable, Dict, List, NamedTuple

from arena_lab.play import schedulers
from arena_lab.play.matches import PlayedMatch
from arena_lab.rules.engines import Program
from arena_lab.rules.fixtures import Fixture, fixture_of
from arena_lab.rules.model import Setup, Verdict
from arena_lab.rules.networks import Network, ring
from arena_lab.rules.rehearsal import Rehearsal
from arena_lab.search.model_search import explore_match
from arena_lab.search.ring_bounds import most_moves, rounds
from arena_lab.support.progress import NO_PROGRESS
from tests.support.matches import flipped_ring, program, two, under

# the sizes of the rings that are drawn
SIZES = (3, 4, 5, 7, 8, 11, 16, 17, 27, 33)
# how many matches are drawn for each search and each scheduler, and how many of them
# the program plays too
DRAWN = 17
ON_THE_PROGRAM = 2


class Bounds(NamedTuple):
    """How many moves, and commands of an agent, a search may need."""

    moves: int
    commands: int


def halves(nodes: int) -> Bounds:
    """`most_moves` and `most_commands` of crates/bhs_protocols/specs/Halving.antt."""
    moves = most_moves(nodes)
    return Bounds(moves, moves + 2 * (nodes - 2) + 2 * rounds(nodes // 2) + 2)


def shuttle(nodes: int) -> Bounds:
    """`ring_bounds` of crates/bhs_protocols/specs/AllRings.antt."""
    return Bounds((nodes - 1) ** 2, (nodes - 2) * (nodes - 1) + 2 * nodes)


SEARCHES: Dict[str, Callable[[int], Bounds]] = {
    "halves.py": halves,
    "shuttle.py": shuttle,
}


def fixture(network: Network, hole: int, home: int, quota: int) -> Fixture:
    """A match with the least whiteboards and the least quota of the theorems."""
    return fixture_of(Setup(network.nodes, network.links, home, [hole], 2, quota, 4))


def worst_distance(nodes: int) -> int:
    """`worst_distance` of crates/bhs_protocols/specs/Attained.antt."""
    half = nodes // 2
    return half - 2 ** (rounds(half) - 1) if half > 1 else 1


def one_after_the_other(first: int) -> schedulers.Scheduler:
    """Returns a scheduler that runs one agent as long as possible, and then the
    other."""
    return lambda choices, state: min(choices, key=lambda choice: choice.agent != first)


class Protocols(unittest.TestCase):
    def moves(
        self, name: str, nodes: int, hole: int, first: int, bounds: Bounds
    ) -> int:
        """Plays a match in which one agent runs until it is lost, and then the other;
        returns the moves."""
        match_fixture = fixture(ring(nodes), hole, 0, bounds.commands)
        result = under(one_after_the_other(first), match_fixture, two(name, "{nodes}"))
        self.check(result, bounds)
        self.assertEqual(result.verdict().lost, 1)
        return result.verdict().moves

    def test_the_bound_of_the_halves_is_attained(self) -> None:
        for nodes in SIZES:
            with self.subTest(nodes=nodes):
                bounds = halves(nodes)
                self.assertEqual(
                    self.moves("halves.py", nodes, worst_distance(nodes), 0, bounds),
                    bounds.moves,
                )

    def test_the_bound_of_the_shuttle_is_attained(self) -> None:
        for nodes in range(3, 10):
            for hole in range(1, nodes):
                with self.subTest(nodes=nodes, hole=hole):
                    first = 0 if nodes - hole > 1 else 1
                    result = self.moves(
                        "shuttle.py", nodes, hole, first, shuttle(nodes)
                    )
                    self.assertEqual(result, hole**2 + (nodes - hole) ** 2 - 1)

    def check(self, match: PlayedMatch, bounds: Bounds) -> None:
        self.assertFalse(match.has_failed())
        self.assertLessEqual(match.verdict().moves, bounds.moves)
        self.assertLessEqual(match.verdict().lost, 1)

    def worst(self, name: str, nodes: int, hole: int, bounds: Bounds) -> Verdict:
        """Returns the worst verdict of all schedules; no schedule may fail."""
        result = explore_match(
            fixture(ring(nodes), hole, 0, bounds.commands),
            two(name, "{nodes}"),
            NO_PROGRESS,
        )
        self.assertTrue(result.is_whole and not result.explorer.worst.has_failed)
        return result.explorer.worst.verdict

    def test_every_schedule_of_small_rings_by_halves(self) -> None:
        for nodes in range(3, 7):
            bounds = halves(nodes)
            worst = [
                self.worst("halves.py", nodes, hole, bounds) for hole in range(1, nodes)
            ]
            with self.subTest(nodes=nodes):
                self.assertEqual(max(it.moves for it in worst), bounds.moves)
                self.assertEqual(max(it.lost for it in worst), 1)

    def test_every_schedule_of_small_rings_by_the_shuttle(self) -> None:
        for nodes in range(3, 6):
            for hole in range(1, nodes):
                with self.subTest(nodes=nodes, hole=hole):
                    worst = self.worst("shuttle.py", nodes, hole, shuttle(nodes))
                    self.assertEqual(worst.moves, hole**2 + (nodes - hole) ** 2 - 1)
                    self.assertLessEqual(worst.lost, 1)

    def test_every_scheduler_of_the_lab(self) -> None:
        engines: List[Callable[[Fixture], Any]] = [
            Rehearsal,
            lambda fixture_given: Program(fixture_given, program()),
        ]
        for name, bounds_of in SEARCHES.items():
            for scheduler, maker in sorted(schedulers.SCHEDULER_MAKERS.items()):
                for seed in range(DRAWN):
                    rng = random.Random(f"{name} {scheduler} {seed}")
                    nodes = rng.choice(SIZES)
                    home, hole = rng.sample(range(nodes), 2)
                    bounds = bounds_of(nodes)
                    network = flipped_ring(nodes, rng) if seed % 2 else ring(nodes)
                    match_fixture = fixture(network, hole, home, bounds.commands)
                    for engine in engines[: 1 + (seed < ON_THE_PROGRAM)]:
                        with self.subTest(
                            name,
                            scheduler=scheduler,
                            seed=seed,
                            nodes=nodes,
                            home=home,
                            hole=hole,
                        ):
                            self.check(
                                under(
                                    maker(seed),
                                    match_fixture,
                                    two(name, "{nodes}"),
                                    engine,
                                ),
                                bounds,
                            )
