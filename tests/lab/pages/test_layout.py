"""Where nodes are drawn: a ring as a circle, in the order of its links."""
import math
import random
import unittest

from arena_lab.pages.match_page import SCALE, laid_out, ring_of
from arena_lab.rules.networks import network_named


class Layout(unittest.TestCase):
    def test_a_ring_is_a_circle_whatever_its_nodes_are_called(self) -> None:
        rng = random.Random(1)
        for nodes in (3, 4, 17):
            names = rng.sample(range(nodes), nodes)
            links = [
                (names[number], names[(number + 1) % nodes]) for number in range(nodes)
            ]
            rng.shuffle(links)
            ring = ring_of(nodes, links)
            self.assertEqual(sorted(ring), list(range(nodes)))
            pairs = {frozenset(it) for it in zip(ring, ring[1:] + ring[:1])}
            self.assertEqual(pairs, set(map(frozenset, links)))
            spots = laid_out(nodes, tuple(links))
            longest = max(
                math.dist(spots[first], spots[second]) for first, second in links
            )
            # stretching makes no side longer than the chord
            self.assertLess(longest, 2 * SCALE * math.sin(math.pi / nodes))
            self.assertEqual(len(set(map(tuple, spots))), nodes)

    def test_other_networks_are_no_ring(self) -> None:
        triangles = [(0, 1), (1, 2), (2, 0), (3, 4), (4, 5), (5, 3)]
        twice = [(0, 1), (0, 1), (2, 3), (2, 3)]
        for nodes, links in ((6, triangles), (4, twice), (3, [(0, 1), (1, 2)])):
            self.assertEqual(ring_of(nodes, links), [])
        torus = network_named("torus:3x3")
        links = [(v, w) for v, _, w, _ in torus.links]
        self.assertEqual(ring_of(torus.nodes, links), [])
