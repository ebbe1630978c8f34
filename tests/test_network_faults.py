"""The rules of networks as tests/program/network_faults.py has them, on lists worked
out by hand."""
import collections
import unittest

from tests.program.network_faults import draw_links, fault_of

TRIANGLE = [[0, 0, 1, 0], [1, 1, 2, 0], [2, 1, 0, 1]]
BOW_TIE = TRIANGLE + [[0, 2, 3, 0], [3, 1, 4, 0], [4, 1, 0, 3]]


class Faults(unittest.TestCase):
    def test_each_fault_and_which_comes_first(self) -> None:
        first, second, third = TRIANGLE
        for nodes, links, fault in (
            (3, TRIANGLE, "none"),
            (2, [first], "nodes"),
            (257, [], "nodes"),
            (3, [first, second, [2, 1, 3, 1]], "node in link 2"),
            (3, [[0, 0, 0, 1], second, third], "loop in link 0"),
            (3, [first, second, [1, 2, 0, 1]], "double link 2"),
            (3, [first, second, [2, 1, 0, 0]], "port twice in link 2"),
            (3, [first, second, [2, 1, 0, 2]], "port gap at node 0"),
            (4, TRIANGLE, "apart"),
            (3, [first, second], "cut node 1"),
            (5, BOW_TIE, "cut node 0"),
            (3, [[0, 0, 0, 1], [1, 1, 3, 0]], "node in link 1"),
            (3, [first, [1, 0, 0, 7]], "double link 1"),
        ):
            with self.subTest(nodes=nodes, links=links):
                self.assertEqual(fault_of(nodes, links), fault)

    def test_lists_by_chance_have_each_fault(self) -> None:
        counts = collections.Counter(
            fault_of(*draw_links(number)).rstrip("0123456789 ") for number in range(600)
        )
        self.assertEqual(len(counts), 9)
        self.assertGreaterEqual(counts["none"], 300)
