"""How two agents divide a ring into three parts, and what that comes to in the worst
case."""
import functools
import math
import unittest

from arena_lab.play.agent_files import AGENTS, load_module

ring3 = load_module(AGENTS / "ring3.py")


def most_moves(nodes: int) -> int:
    """The moves of the search in the worst case, counted: of cautious walks, and of
    ways between the agents."""

    @functools.lru_cache(None)
    def ways(remaining: int) -> int:
        """The most that ways cost from a division of what is left on, with the way of
        the agent that divides. A way to somewhere and back is two moves shorter, as an
        agent goes to its last safe node only to go on from there."""
        if remaining == 1:
            return 0
        variant = nodes - 1 - remaining
        mine, middle = ring3.parts(remaining)
        limit = 0
        for first, last, near in (
            (mine, remaining - mine - middle, variant - variant // 2),
            (remaining - mine - middle, mine, variant // 2),
        ):
            if not middle:
                limit = max(limit, moves_from(last, variant + first))
                continue
            duration = 2 * (near + first) - 2
            observations = (
                2 * (variant - near + last) - 2
                if middle == 1
                else moves_from(middle, variant + first + last)
            )
            limit = max(
                limit,
                duration + moves_from(last, variant + first + middle),
                duration + observations,
            )
        return variant + limit

    @functools.lru_cache(None)
    def moves_from(remaining: int, variant: int) -> int:
        """Returns the most moves from a state in which only the part of the other agent
        is left, which may end several nodes away."""
        return (
            0
            if remaining == 1
            else variant - 2 + max(i + ways(remaining - i) for i in range(remaining))
        )

    return 3 * (nodes - 2) + 1 + ways(nodes - 1)


class Division(unittest.TestCase):
    def test_each_agent_has_a_part_and_the_parts_are_what_is_left(self) -> None:
        for remaining in range(2, 256):
            mine, middle = ring3.parts(remaining)
            theirs = remaining - mine - middle
            with self.subTest(left=remaining):
                self.assertGreaterEqual(min(mine, theirs), 1)
                self.assertLessEqual(abs(mine - theirs), 0 if middle else 1)
                self.assertLessEqual(
                    max(mine, middle, theirs),
                    (remaining + 2) // 3 if middle else (remaining + 1) // 2,
                )

    def test_most_moves(self) -> None:
        counts = {
            3: 4,
            4: 7,
            5: 12,
            6: 19,
            7: 24,
            8: 33,
            9: 40,
            16: 103,
            27: 226,
            32: 281,
            64: 707,
            128: 1681,
        }
        self.assertEqual({nodes: most_moves(nodes) for nodes in counts}, counts)

    def test_the_bound_of_the_literature_is_kept_but_for_a_fifth_of_a_move_a_node(
        self,
    ) -> None:
        for nodes in range(3, 257):
            self.assertLess(
                most_moves(nodes), 3 * nodes * math.log(nodes, 3) + nodes / 5
            )


class Texts(unittest.TestCase):
    def test_what_a_whiteboard_says(self) -> None:
        self.assertEqual(ring3.fields(""), {})
        self.assertEqual(
            ring3.fields("left told 5, middle 27"), {"left": "told 5", "middle": "27"}
        )
