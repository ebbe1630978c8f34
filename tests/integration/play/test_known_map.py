"""Two agents that have a map solve every biconnected network, whatever the schedule."""
import random
import unittest
from typing import Iterator, Tuple

from arena_lab.play import schedulers
from arena_lab.rules import draws
from arena_lab.rules.engines import Program
from arena_lab.rules.fixtures import Fixture
from arena_lab.rules.networks import Network, draw_network, network_named, number_ports
from arena_lab.search.model_search import explore_match
from arena_lab.support.missing import require
from arena_lab.support.progress import NO_PROGRESS
from tests.support.drawing import by_chance
from tests.support.matches import KNOWN_MAP, fixture, play_fixture, program

NETWORKS = ("ring:32", "hypercube:5", "torus:6x6", "complete:20", "ccc:3")


def small_networks(largest: int) -> Iterator[Network]:
    """Every biconnected network of 3 nodes and more, but for the labels of its ports,
    which are drawn."""
    networkx = require("networkx")
    for graph in networkx.graph_atlas_g():
        if 3 <= len(graph) <= largest and networkx.is_biconnected(graph):
            pairs = [tuple(pair) for pair in graph.edges]
            yield Network(
                len(graph), number_ports(len(graph), pairs, random.Random(len(pairs)))
            )


def matches_on(network: Network) -> Iterator[Tuple[int, int]]:
    """Each home base with each black hole."""
    return (
        (home, hole)
        for home in range(network.nodes)
        for hole in range(network.nodes)
        if home != hole
    )


class KnownMap(unittest.TestCase):
    def test_no_schedule_fails_on_any_network_of_three_to_five_nodes(self) -> None:
        count = 0
        for network in small_networks(5):
            for home, hole in matches_on(network):
                result = explore_match(
                    fixture(network, hole, home=home), [KNOWN_MAP] * 2, NO_PROGRESS
                )
                count += 1
                with self.subTest(links=network.links, home=home, hole=hole):
                    self.assertTrue(result.is_whole)
                    self.assertFalse(result.explorer.worst.has_failed)
                    self.assertLessEqual(result.explorer.worst.verdict.lost, 1)
        self.assertEqual(count, 242)

    @by_chance(140)
    def test_drawn_schedules_and_networks(self, rng: random.Random) -> None:
        name = rng.choice((*NETWORKS, "", "", ""))
        network = (
            draws.renumber(network_named(name), rng.randrange(40))
            if name
            else draw_network(rng)
        )
        home, hole = rng.sample(range(network.nodes), 2)
        maker = schedulers.SCHEDULER_MAKERS[
            rng.choice(sorted(schedulers.SCHEDULER_MAKERS))
        ]
        match_fixture: Fixture = fixture(network, hole, home=home)
        match = play_fixture(match_fixture, KNOWN_MAP, rng.randrange(140), maker)
        self.assertFalse(match.has_failed())
        self.assertLessEqual(match.verdict().lost, 1)

    def test_the_program_says_the_same(self) -> None:
        match_fixture = fixture(network_named("torus:4x4"), 7)
        match = play_fixture(
            match_fixture,
            KNOWN_MAP,
            1,
            engine=lambda fixture_given: Program(fixture_given, program()),
        )
        self.assertEqual(match.replay, play_fixture(match_fixture, KNOWN_MAP, 1).replay)
        self.assertFalse(match.has_failed())
