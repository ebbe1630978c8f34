"""Two agents that divide a network with a map solve it within the moves of the theorem."""
import random
import unittest

from arena_lab.play import schedulers
from arena_lab.play.agent_files import load_module
from arena_lab.play.teams import INSIDE, AgentWords
from arena_lab.rules import draws
from arena_lab.rules.engines import Program
from arena_lab.rules.networks import draw_network, network_named
from arena_lab.search.model_search import explore_match
from arena_lab.support.progress import NO_PROGRESS
from tests.integration.play.test_known_map import NETWORKS, matches_on, small_networks
from tests.support.drawing import by_chance
from tests.support.matches import AGENTS, fixture, play_fixture, program

DIVIDING = AgentWords(INSIDE, str(AGENTS / "dividing.py"))
max_moves = load_module(AGENTS / "dividing_plan.py").max_moves


class Dividing(unittest.TestCase):
    def test_no_schedule_fails_on_any_network_of_three_or_four_nodes(self) -> None:
        count = 0
        for network in small_networks(4):
            for home, hole in matches_on(network):
                search = explore_match(
                    fixture(network, hole, home=home), [DIVIDING] * 2, NO_PROGRESS
                )
                count += 1
                with self.subTest(links=network.links, home=home, hole=hole):
                    self.assertTrue(search.is_whole)
                    self.assertFalse(search.explorer.worst.has_failed)
                    verdict = search.explorer.worst.verdict
                    self.assertLessEqual(verdict.lost, 1)
                    self.assertLessEqual(verdict.moves, max_moves(network.nodes))
        self.assertEqual(count, 42)

    @by_chance(60)
    def test_drawn_schedules_and_networks(self, rng: random.Random) -> None:
        name = rng.choice((*NETWORKS, "", "", ""))
        network = (
            draws.renumber(network_named(name), rng.randrange(40))
            if name
            else draw_network(rng)
        )
        home, hole = rng.sample(range(network.nodes), 2)
        maker = schedulers.SCHEDULER_MAKERS[
            rng.choice(sorted(schedulers.SCHEDULER_MAKERS))
        ]
        match_fixture = fixture(network, hole, home=home)
        match = play_fixture(match_fixture, DIVIDING, rng.randrange(140), maker)
        self.assertFalse(match.has_failed())
        self.assertLessEqual(match.verdict().lost, 1)
        self.assertLessEqual(match.verdict().moves, max_moves(network.nodes))

    def test_the_program_says_the_same(self) -> None:
        torus = fixture(network_named("torus:4x4"), 7)
        match = play_fixture(
            torus, DIVIDING, 1, engine=lambda given: Program(given, program())
        )
        self.assertEqual(match.replay, play_fixture(torus, DIVIDING, 1).replay)
        self.assertFalse(match.has_failed())
