"""A person who plays agents sees what agents see: a black hole and a slow link look
alike until the match is over."""
import io
import random
import unittest
from typing import List
from unittest import mock

from arena_lab.__main__ import main
from arena_lab.commands.play import match_of
from arena_lab.play.human import ON_A_LINK, HumanMatch
from arena_lab.rules.fixtures import fixture_of
from arena_lab.rules.model import Setup
from arena_lab.rules.networks import ring
from tests.support.needing import needs
from tests.support.output import run_call

RING = ring(4)
# agent 0 departs over port 0, agent 1 over port 1 and back
STEPS = (
    ("say", 0, {"do": "enter"}),
    ("say", 0, {"do": "write", "expect": "", "put": "by 0"}),
    ("say", 0, {"do": "depart", "port": 0}),
    ("say", 1, {"do": "enter"}),
    ("wait",),
    ("wait",),
    ("say", 1, {"do": "depart", "port": 1}),
    ("wait",),
    ("wait",),
    ("wait",),
    ("wait",),
    ("deliver", 0),
    ("deliver", 1),
    ("say", 1, {"do": "look"}),
)


def make_match(holes: List[int], is_held: bool) -> HumanMatch:
    held_links = [(0, 0), (2, 1)] if is_held else []
    fixture = fixture_of(Setup(4, RING.links, 0, holes, 2, 100, 64))._replace(
        held=held_links
    )
    return HumanMatch(fixture, random.Random(5))


class Twins(unittest.TestCase):
    def test_a_black_hole_and_a_slow_link_look_alike(self) -> None:
        hole = make_match([1], False)
        slow = make_match([], True)
        for name, *arguments in STEPS:
            for match in (hole, slow):
                getattr(match, name)(*arguments)
            self.assertEqual(hole.as_dict(), slow.as_dict())
        self.assertEqual(ON_A_LINK, hole.seen[0].standing)
        self.assertEqual("at a node", hole.seen[1].standing)
        self.assertEqual((1, 0), (hole.end().lost, slow.end().lost))

    def test_what_is_on_a_link_says_nothing(self) -> None:
        match = make_match([1], False)
        for name, *arguments in STEPS[:3]:
            getattr(match, name)(*arguments)
        self.assertFalse(match.may_say(0))
        self.assertTrue(match.may_say(1))

    def test_a_whiteboard_is_what_the_agent_saw_last(self) -> None:
        match = make_match([1], False)
        match.say(0, {"do": "enter"})
        match.say(1, {"do": "enter"})
        match.say(0, {"do": "write", "expect": "", "put": "one"})
        self.assertEqual(("one", ""), (match.seen[0].board, match.seen[1].board))
        match.say(1, {"do": "write", "expect": "", "put": "two"})
        self.assertEqual("one", match.seen[1].board)


@needs("networkx")
class Terminal(unittest.TestCase):
    def play(self, lines: str, *words: str) -> str:
        with mock.patch("sys.stdin", io.StringIO(lines)):
            status, output, _ = run_call(
                main,
                ["play", "--network", "ring:4", "--hole", "1", "--seed", "1", *words],
            )
        self.assertEqual(0, status)
        return str(output)

    def test_a_search_from_its_beginning_to_its_end(self) -> None:
        wait = "wait\n" * 10
        output = self.play(
            f"enter\nwrite by 0\n0\n\nenter\n1\n{wait}1\n{wait}accuse 1\nend\n"
        )
        self.assertIn("the whiteboard says: by 0", output)
        self.assertIn(
            "Agent 0 is on a link; nothing is heard of it.",
            self.play("enter\n0\nwait\nwait\nwait\n"),
        )
        self.assertIn("The match is over: solved moves 3 lost 1", output)
        self.assertIn("agent 0 was at nodes 0, and was destroyed", output)
        before, _, _ = output.partition("The match is over")
        self.assertNotIn("destroyed", before)

    def test_a_second_person_says_who_arrives(self) -> None:
        output = self.play("enter\n1\nwait\narrive 0\n", "--second-person")
        self.assertIn("agent 0 was at nodes 0, 3", output)

    def test_what_is_no_command_and_what_is_refused(self) -> None:
        output = self.play("jump\nlook\n\nenter\n7\n")
        self.assertEqual(2, output.count("let time pass"))
        self.assertIn('Refused: {"no":"port"}', output)

    def test_a_riddle_has_a_black_hole_or_a_node_at_which_nobody_arrives(self) -> None:
        kinds = set()
        for seed in range(20):
            words = mock.Mock(
                seed=seed, network="ring:4", hole=2, riddle=True, agents=2
            )
            fixture = match_of(words).fixture
            kinds.add((tuple(fixture.setup.holes), tuple(fixture.held)))
        self.assertEqual({((2,), ()), ((), ((1, 0), (3, 1)))}, kinds)

    def test_the_end_of_a_riddle_names_the_node(self) -> None:
        results = set()
        for seed in range(9):
            lines = self.play(
                "end\n", "--riddle", "--seed", str(seed), "--hole", "2"
            ).splitlines()
            results |= {
                line for line in lines if "black hole" in line and "behind" not in line
            }
        self.assertEqual(
            {
                "There is no black hole: nobody arrives at node 2.",
                "The black hole is node 2.",
            },
            results,
        )

    def test_a_second_person_has_no_page(self) -> None:
        status, _, output = run_call(main, ["play", "--page", "--second-person"])
        self.assertEqual(2, status)
        self.assertIn("leave out --page or --second-person", output)
