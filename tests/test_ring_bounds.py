"""The picture of bounds on rings draws what PROTOCOLS says, and every search lies
between the bounds."""
import pathlib
import re
import unittest

from arena_lab.search.ring_bounds import least_moves, more_moves, most_moves
from bench.ring_bounds import AGENTS, explore_moves

PROTOCOLS = pathlib.Path(__file__).resolve().parents[1] / "docs" / "PROTOCOLS.md"


class Bounds(unittest.TestCase):
    def test_the_rows_of_the_document(self) -> None:
        rows = re.findall(
            r"^\| ([\d,]+) \| ([\d,]+) \| ([\d,]+) \|$",
            PROTOCOLS.read_text(encoding="utf-8"),
            re.M,
        )
        results = [
            tuple(int(number.replace(",", "")) for number in row) for row in rows
        ]
        self.assertEqual(
            results, [(n, more_moves(n), most_moves(n)) for n in (8, 16, 64, 256, 1024)]
        )

    def test_halves_on_small_rings(self) -> None:
        self.assertEqual(
            [most_moves(nodes) for nodes in (3, 4, 5, 6, 7, 8, 9, 16, 27, 32, 64)],
            [4, 9, 14, 23, 30, 37, 44, 113, 246, 301, 745],
        )

    def test_what_was_explored_lies_between_the_bounds(self) -> None:
        for agent in AGENTS:
            points = explore_moves(agent)
            self.assertGreater(len(points), 5, agent)
            for nodes, moves in points.items():
                with self.subTest(agent, nodes=nodes):
                    self.assertLessEqual(
                        max(least_moves(nodes), more_moves(nodes)), moves
                    )
                    self.assertLessEqual(moves, most_moves(nodes))

    def test_halves_make_as_many_moves_as_they_may(self) -> None:
        result = explore_moves("ring_step.py")
        self.assertEqual(result, {nodes: most_moves(nodes) for nodes in result})
