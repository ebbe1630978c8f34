"""Families of networks: each match stands in the list once, whatever its nodes are
called."""
import itertools
import math
import random
import unittest
from typing import Iterator, Tuple
from unittest import mock

from hypothesis import given
from hypothesis import strategies as st

from arena_lab.rules import families
from arena_lab.rules.families import (
    geng,
    Family,
    FamilyError,
    FamilyPorts,
    matches_of,
    normal_form,
)
from arena_lab.rules.networks import (
    Network,
    check_network,
    cut_of,
    draw_network,
    network_named,
)


def labelled_networks(nodes: int) -> Iterator[Network]:
    """Lists all networks of a size whose nodes are numbered, one numbering of ports for
    each set of links."""
    pairs = list(itertools.combinations(range(nodes), 2))
    for count in range(nodes, len(pairs) + 1):
        for links in itertools.combinations(pairs, count):
            rows = {
                node: [pair for pair in links if node in pair] for node in range(nodes)
            }
            network = Network(
                nodes,
                [
                    (v, rows[v].index((v, w)), w, rows[w].index((v, w)))
                    for v, w in links
                ],
            )
            if min(network.degrees()) > 1 and not cut_of(network):
                yield network


class Families(unittest.TestCase):
    def matches(self, nodes: int, *terms: object) -> int:
        return len(list(matches_of(Family(range(nodes, nodes + 1), *terms))))  # type: ignore[arg-type]

    def test_all_numberings_are_as_many_as_can_be_counted(self) -> None:
        """No renumbering of nodes but the identity keeps home base and ports, so each match
        stands for as many numbered ones as there are permutations of the nodes."""
        for nodes in (3, 4):
            count = (
                nodes
                * (nodes - 1)
                * sum(
                    math.prod(map(math.factorial, network.degrees()))
                    for network in labelled_networks(nodes)
                )
            )
            self.assertEqual(self.matches(nodes), count // math.factorial(nodes), nodes)

    def test_matches_are_networks_in_normal_form_each_once(self) -> None:
        matches = list(matches_of(Family(range(3, 6), 3, FamilyPorts(3))))
        self.assertEqual([match.number for match in matches], [*range(len(matches))])
        self.assertEqual(len({repr(match[1:]) for match in matches}), len(matches))
        for match in matches:
            check_network(match.network, "a match")
            self.assertLessEqual(max(match.network.degrees()), 3)
            again = normal_form(match.network, 0, match.hole)
            self.assertEqual(again[1:], match[1:])

    def test_draws_repeat_and_are_among_all(self) -> None:
        every = {repr(match[1:]) for match in matches_of(Family(range(4, 5)))}
        terms = Family(range(4, 5), None, FamilyPorts(5))
        draws = [repr(match[1:]) for match in matches_of(terms)]
        self.assertEqual(draws, [repr(match[1:]) for match in matches_of(terms)])
        self.assertLessEqual({*draws}, every)
        # ring:4 has two classes of holes, four nodes and five links five, complete:4 one
        self.assertLessEqual(len(draws), 5 * (2 + 5 + 1))
        self.assertGreater(len(draws), 3 * (2 + 5 + 1))

    @given(st.integers(0, 200), st.integers(0, 200))
    def test_the_normal_form_does_not_depend_on_numbers_of_nodes(
        self, network_seed: int, name_seed: int
    ) -> None:
        network = draw_network(random.Random(network_seed))
        names = random.Random(name_seed).sample(range(network.nodes), network.nodes)
        links = [(names[v], p, names[w], q) for v, p, w, q in network.links]
        other_network = Network(network.nodes, links[::-1])
        self.assertEqual(
            normal_form(network, 0, 2), normal_form(other_network, names[0], names[2])
        )

    def test_another_port_home_base_or_hole_is_another_match(self) -> None:
        ring = network_named("ring:5")
        forms = [normal_form(ring, 0, hole) for hole in range(1, 5)]
        self.assertEqual(len(set(map(repr, forms))), 4)
        other_ring = ring._replace(links=[(0, 1, 1, 1), *ring.links[1:4], (4, 0, 0, 0)])
        self.assertNotEqual(normal_form(other_ring, 0, 1), normal_form(ring, 0, 1))

    def test_faults_say_what_to_change(self) -> None:
        for word in ("nodes", "nodes:2", "nodes:5..4", "ring:5"):
            with self.assertRaisesRegex(FamilyError, "nodes"):
                families.sizes_of(word)
        with self.assertRaisesRegex(FamilyError, "--ports drawn:K"):
            self.matches(6)
        with mock.patch("shutil.which", return_value=None):
            with self.assertRaisesRegex(FamilyError, "package nauty"):
                self.matches(8, 3, FamilyPorts(1))

    @unittest.skipUnless(geng(), "Debian's nauty is not installed")
    def test_larger_graphs_are_listed_by_geng(self) -> None:
        """geng lists the same graphs as networkx, of which there are 10 and 56 here."""
        for nodes, count in ((5, 10), (6, 56)):
            with mock.patch.object(families, "ATLAS_NODES", nodes - 1):
                self.assertEqual(len(list(families.graphs_of(nodes, None))), count)
            self.assertEqual(len(list(families.graphs_of(nodes, None))), count)
        self.assertEqual(len(list(families.graphs_of(8, 2))), 1)

    def test_words_of_ports(self) -> None:
        cases: Tuple[Tuple[str, object], ...] = (
            ("all", FamilyPorts()),
            ("drawn:3", FamilyPorts(3)),
            ("drawn", "drawn"),
            ("given", None),
            ("shuffled:7", 7),
        )
        for word, ports in cases:
            self.assertEqual(families.ports_of(word), ports)
