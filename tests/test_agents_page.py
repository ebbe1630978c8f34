"""The page for those who write agents: its conversations are played, and it names each
kit, answer and refusal."""
import json
import re
import unittest
from typing import List, Tuple

from arena_lab.play.kits import KITS
from arena_lab.rules.fixtures import fixture_of
from arena_lab.rules.model import Setup, judge
from arena_lab.rules.rehearsal import Rehearsal, SentLine
from tests import TOP

PAGE = (TOP / "docs" / "AGENTS.md").read_text(encoding="utf-8")
CLIENT = (TOP / "examples" / "agents" / "client.py").read_text(encoding="utf-8")
# the triangle of the built-in match
TRIANGLE = Setup(3, [(0, 0, 1, 0), (1, 1, 2, 0), (2, 1, 0, 1)], 0, [2], 2, 10, 8)
LINE = re.compile(r"    ([<>]) (\{.*\})")
OVER = '{"ok":"over"}'


def lines() -> List[Tuple[str, str]]:
    """Returns the lines of the conversations in order, each with its speaker."""
    return [
        (result[1], result[2])
        for result in map(LINE.fullmatch, PAGE.split("\n"))
        if result
    ]


class Conversation(unittest.TestCase):
    def setUp(self) -> None:
        self.engine = Rehearsal(fixture_of(TRIANGLE)._replace(keys=["ka", "kb"]))
        self.told: List[SentLine] = []
        self.now = -1

    def say(self, line: str) -> None:
        self.assertEqual([], self.told, "an answer is missing")
        self.now += json.loads(line)["do"] == "enter"
        self.told = self.engine.feed(self.now, line.encode())

    def hear(self, line: str) -> None:
        if not self.told and line == OVER:
            self.assertEqual(
                [], self.engine.draw(0), "the first agent is in the black hole"
            )
            self.told = self.engine.close()
        elif not self.told:
            self.told = self.engine.draw(len(self.engine.match.pool) - 1)
        self.assertTrue(self.told, f"nothing is told where the page has {line}")
        self.assertEqual(line, self.told.pop(0)[1])

    def test_each_line_is_what_the_rules_say(self) -> None:
        for who, line in lines():
            with self.subTest(line):
                (self.say if who == ">" else self.hear)(line)
        self.assertEqual([], self.told)
        result = judge(self.engine.match)
        self.assertIn(
            f"`{result.outcome} moves {result.moves} lost {result.lost}`", PAGE
        )


class Words(unittest.TestCase):
    def test_each_kit_is_named(self) -> None:
        for language in KITS:
            with self.subTest(language):
                self.assertIn(f"`{language}`", PAGE)

    def test_each_refusal_has_a_row(self) -> None:
        for why in re.findall(
            r'"(\w+)": [A-Z]\w+[,\n]',
            CLIENT.partition("REFUSALS = {")[2].partition("}")[0],
        ):
            with self.subTest(why):
                self.assertRegex(PAGE, rf"\| (`\w+`, )*`{why}`(, `\w+`)* \|")
