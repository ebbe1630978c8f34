"""Two agents that divide a ring into three parts solve it, with as few moves as were
counted."""
import random
import unittest

from arena_lab.play import schedulers
from arena_lab.rules.fixtures import Fixture, fixture_of
from arena_lab.rules.model import Setup
from arena_lab.rules.networks import Network, ring
from arena_lab.search.model_search import explore_match
from arena_lab.support.progress import NO_PROGRESS
from experiments import adversary, turns
from experiments.division import Table, of_ring3, ring3
from tests.lab.play.test_ring3 import most_moves
from tests.support.drawing import by_chance
from tests.support.matches import RING3, flipped_ring, play_fixture


def fixture(network: Network, hole: int, home: int = 0) -> Fixture:
    """A match with whiteboards of 48 bytes, and commands enough for a large ring."""
    return fixture_of(Setup(network.nodes, network.links, home, [hole], 2, 10_000, 48))


class Ring3(unittest.TestCase):
    def test_every_schedule_of_small_rings(self) -> None:
        for nodes in range(3, 8):
            results = [
                explore_match(fixture(ring(nodes), hole), [RING3] * 2, NO_PROGRESS)
                for hole in range(1, nodes)
            ]
            with self.subTest(nodes=nodes):
                self.assertTrue(
                    all(
                        result.is_whole and not result.explorer.worst.has_failed
                        for result in results
                    )
                )
                self.assertEqual(
                    max(result.explorer.worst.verdict.moves for result in results),
                    most_moves(nodes),
                )
                self.assertEqual(
                    max(result.explorer.worst.verdict.lost for result in results), 1
                )

    @by_chance(120)
    def test_drawn_schedules_of_larger_rings(self, rng: random.Random) -> None:
        nodes = rng.choice((8, 11, 16, 20, 27, 33, 50))
        home, hole = rng.sample(range(nodes), 2)
        network = rng.choice((flipped_ring(nodes, rng), ring(nodes)))
        name = rng.choice(sorted(schedulers.SCHEDULER_MAKERS))
        match = play_fixture(
            fixture(network, hole, home),
            RING3,
            rng.randrange(120),
            schedulers.SCHEDULER_MAKERS[name],
        )
        self.assertFalse(match.has_failed())
        self.assertLessEqual(match.verdict().moves, most_moves(nodes))
        self.assertLessEqual(match.verdict().lost, 1)

    def test_the_worst_case_is_found(self) -> None:
        maximum = max(
            play_fixture(fixture(ring(16), 1 + seed % 15), RING3, seed).verdict().moves
            for seed in range(100)
        )
        self.assertEqual(maximum, most_moves(16))

    def test_the_adversary_attains_the_worst_case(self) -> None:
        for nodes in (9, 16, 27, 32):
            with self.subTest(nodes=nodes):
                hole = Table(nodes, of_ring3).runs()[1] + 1
                match = play_fixture(
                    fixture(ring(nodes), hole), RING3, 0, adversary.worst_case
                )
                self.assertFalse(match.has_failed())
                self.assertEqual(match.verdict().moves, most_moves(nodes))


class Counting(unittest.TestCase):
    def test_the_dynamic_program_counts_the_same(self) -> None:
        for nodes in range(3, 130):
            self.assertEqual(Table(nodes, of_ring3).moves(), most_moves(nodes))

    def test_the_worst_case_is_attained_by_the_code_of_the_agents(self) -> None:
        for nodes in (*range(3, 40), 64, 81, 128):
            with self.subTest(nodes=nodes):
                runs, right = Table(nodes, of_ring3).runs()
                search_end = turns.play_search(ring3.search, nodes, runs)
                self.assertEqual(
                    (search_end.moves, search_end.hole), (most_moves(nodes), right + 1)
                )
