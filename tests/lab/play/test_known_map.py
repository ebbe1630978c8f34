"""How two agents that have a map divide a network."""
import random
import unittest
from typing import Iterable

from arena_lab.play.agent_files import AGENTS, load_module
from arena_lab.rules.networks import draw_network, network_named
from tests.support.drawing import by_chance

known_map = load_module(AGENTS / "known_map.py")


def hangs_together(network: "known_map.Map", nodes: Iterable[int]) -> bool:
    """Returns whether these nodes are joined by ways over themselves."""
    remaining = set(nodes)
    stack = [remaining.pop()] if remaining else []
    while stack:
        near = remaining & set(network.ports[stack.pop()])
        remaining -= near
        stack += near
    return not remaining


NAMES = ("ring:7", "hypercube:3", "complete:6", "torus:3x3", "ccc:3")


def map_of(rng: random.Random) -> "known_map.Map":
    """Draws a named or a random network."""
    name = rng.choice((*NAMES, ""))
    return known_map.Map((network_named(name) if name else draw_network(rng)).links)


def explored_in(network: "known_map.Map", rng: random.Random) -> frozenset:
    """A part of the network by chance that hangs together, and leaves two nodes or
    more."""
    nodes = {rng.choice(sorted(network.nodes))}
    for _ in range(rng.randrange(len(network.nodes) - 2)):
        nodes.add(
            rng.choice(
                [far for node in sorted(nodes) for far in sorted(network.ports[node])]
            )
        )
    return frozenset(nodes)


class Division(unittest.TestCase):
    @by_chance(200)
    def test_each_front_and_each_rest_hangs_together_with_what_is_explored(
        self, rng: random.Random
    ) -> None:
        network = map_of(rng)
        exploration = explored_in(network, rng)
        first = rng.choice(
            [
                node
                for node in sorted(network.nodes - exploration)
                if exploration & set(network.ports[node])
            ]
        )
        order = network.order_of(exploration, first)
        self.assertEqual(order[0], first)
        self.assertEqual(sorted(order), sorted(network.nodes - exploration))
        for cut in range(len(order) + 1):
            self.assertTrue(hangs_together(network, exploration | set(order[:cut])))
            self.assertTrue(hangs_together(network, exploration | set(order[cut:])))

    @by_chance(100)
    def test_each_node_is_entered_from_one_that_is_known_by_then(
        self, rng: random.Random
    ) -> None:
        network = map_of(rng)
        exploration = explored_in(network, rng)
        start, first = rng.choice(
            [
                (v, w)
                for v in sorted(exploration)
                for w in sorted(network.ports[v])
                if w not in exploration
            ]
        )
        plan = network.plan(exploration, start, first)
        message, teller = plan.crossings
        self.assertEqual(message[0], (start, network.ports[start][first], first))
        self.assertEqual(
            sorted(it.end for it in message + teller),
            sorted(network.nodes - exploration),
        )
        self.assertIn(len(message) - len(teller), (0, 1))
        for crossings in plan.crossings:
            facts = set(exploration)
            for crossing in crossings:
                self.assertIn(crossing.start, facts)
                self.assertEqual(
                    network.ports[crossing.start][crossing.end], crossing.port
                )
                facts.add(crossing.end)

    def test_a_network_that_can_be_cut_is_refused(self) -> None:
        bow = [
            (0, 0, 1, 0),
            (1, 1, 2, 0),
            (2, 1, 0, 1),
            (2, 2, 3, 0),
            (3, 1, 4, 0),
            (4, 1, 2, 3),
        ]
        with self.assertRaisesRegex(known_map.NotBiconnectedError, "without node 2"):
            known_map.Map(bow).plan(frozenset([0]), 0, 1)


class Texts(unittest.TestCase):
    def test_what_a_whiteboard_says(self) -> None:
        output = {"front": "taken", "0": "safe", "2": "told 2f"}
        self.assertEqual(known_map.fields(known_map.text_of(output)), output)
        self.assertEqual(known_map.fields(""), {})
        self.assertEqual(known_map.nodes_of("2f"), {0, 1, 2, 3, 5})
        self.assertEqual(known_map.mask_of(frozenset([0, 1, 2, 3, 5])), "2f")
