"""Agents that are repeated alone (arena_lab/play/repetitions.py)."""
import unittest
from typing import Any, List, Optional

from arena_lab.play.players import SLEEPS, TRAVELS, WAITS
from arena_lab.rules.draws import seed_of
from arena_lab.play.repetitions import (
    Alone,
    Otherwise,
    PastCommand,
    in_words,
    past_of,
    with_new_keys,
)
from arena_lab.rules.fixtures import fixture_of
from arena_lab.rules.model import GONE, Setup, spell
from arena_lab.rules.networks import ring
from arena_lab.support.built import TOP

KEYS = ["ka", "kb"]
QUOTA = 100
LOOK = {"do": "look"}


class Speaks:
    """A player that says these lines, whatever it is told."""

    def __init__(self, number: int, lines: List[Any]) -> None:
        self.number = number
        self.state = WAITS
        self.fault = None
        self.told: List[str] = []
        self._left = [spell(line).encode() for line in lines]
        self.line: Optional[bytes] = self._left.pop(0) if self._left else None

    def hear(self, line: str) -> None:
        self.told.append(line)
        self.state = TRAVELS if line == spell(GONE) else WAITS
        if self.state == WAITS:
            self.line = self._left.pop(0) if self._left else None


class Sleeps(Speaks):
    """One that sleeps this number of times before it says a line."""

    def __init__(self, number: int, lines: List[Any], naps: int) -> None:
        self.woken = self._due = 0
        self._naps = naps
        super().__init__(number, lines)
        self._sleep()

    def hear(self, line: str) -> None:
        super().hear(line)
        if self.state == WAITS and self.line is not None:
            self._sleep()

    def go_on(self) -> None:
        self.woken = self.woken + 1
        self._due = self._due - 1
        if not self._due:
            self.state = WAITS
            self.line = self._kept

    def _sleep(self) -> None:
        self.state = SLEEPS
        self._kept = self.line
        self.line = None
        self._due = self._naps


class RepeatingTest(unittest.TestCase):
    replay = (TOP / "examples/first0.jsonl").read_text()

    def lines(self, agent: int) -> List[Any]:
        """What an agent sent."""
        return [
            {**message.command, "key": KEYS[agent]}
            if message.command["do"] == "enter"
            else message.command
            for message in past_of(self.replay, agent)
        ]

    def repeat(
        self, agent: int, lines: List[Any], quota: int = QUOTA
    ) -> Optional[Otherwise]:
        """Repeats an agent that says these lines."""
        self.player: Any = Speaks(agent, lines)
        return Alone(self.player, KEYS[agent], quota).otherwise(
            past_of(self.replay, agent)
        )

    def test_who_says_the_same_is_told_what_the_replay_has(self) -> None:
        for agent in (0, 1):
            past = past_of(self.replay, agent)
            self.assertGreater(len(past), 2)
            self.assertIsNone(self.repeat(agent, self.lines(agent)))
            self.assertEqual(
                self.player.told,
                [spell(line) for message in past for line in message.lines],
            )

    def test_the_first_difference_is_told(self) -> None:
        lines = self.lines(0)
        for number in range(1, len(lines)):
            output = self.repeat(
                0, [*lines[:number], {"do": "depart", "port": 9}, *lines[number + 1 :]]
            )
            self.assertIsNotNone(output)
            if output:
                self.assertEqual(
                    (output.number, output.in_match, output.alone["port"]),
                    (number + 1, lines[number], 9),
                )

    def test_who_ends_before_has_left(self) -> None:
        output = self.repeat(0, self.lines(0)[:1])
        self.assertEqual(output.alone if output else None, {"do": "leave"})

    def test_another_key_is_a_difference(self) -> None:
        output = self.repeat(0, [{"do": "enter", "key": "kb"}])
        self.assertEqual(output.number if output else None, 1)
        self.assertNotIn("kb", str(output))

    def test_entering_twice_is_answered(self) -> None:
        lines = self.lines(0)
        self.assertIsNone(self.repeat(0, [lines[0], lines[0], *lines[1:]]))
        self.assertIn(spell({"no": "twice"}), self.player.told)

    def test_commands_beyond_the_quota_are_answered(self) -> None:
        past = [
            PastCommand({"do": "enter"}, [{}]),
            PastCommand(LOOK, [{}]),
            PastCommand({"do": "leave"}, [{}]),
        ]
        for quota, expectation in ((1, None), (2, 3)):
            player: Any = Speaks(
                0, [{"do": "enter", "key": "ka"}, LOOK, LOOK, {"do": "leave"}]
            )
            otherwise = Alone(player, "ka", quota).otherwise(past)
            self.assertEqual(otherwise.number if otherwise else None, expectation)

    def test_who_sleeps_wakes_until_it_says_something(self) -> None:
        """How often an agent has slept stands in no replay."""
        player: Any = Sleeps(0, self.lines(0), 3)
        self.assertIsNone(
            Alone(player, KEYS[0], QUOTA).otherwise(past_of(self.replay, 0))
        )
        self.assertGreater(player.woken, 9)

    def test_keys_are_new_each_time(self) -> None:
        """So that no program finds by its key what an earlier one has left."""
        fixture = fixture_of(Setup(4, ring(4).links, 0, [2], 2, QUOTA, 64))
        keys = [key for _ in range(5) for key in with_new_keys(fixture).keys]
        self.assertEqual(len(set(keys) - set(fixture.keys)), 10)

    def test_who_did_not_enter_may_not_enter(self) -> None:
        for lines, expectation in (([], None), ([{"do": "enter", "key": "ka"}], 1)):
            player: Any = Speaks(0, lines)
            otherwise = Alone(player, "ka", QUOTA).otherwise([])
            self.assertEqual(otherwise.number if otherwise else None, expectation)

    def test_what_was_said_hides_nothing(self) -> None:
        text = in_words({"do": "write", "expect": "", "put": "a\u202e\x1b[8mb"})
        self.assertEqual(text, 'write expect "" put "a\\u202e\\u001b[8mb"')
        self.assertEqual(in_words({"do": "depart", "port": 1}), "depart port 1")

    def test_a_seed_fits_everywhere_and_comes_from_the_key(self) -> None:
        results = [seed_of(f"k{number}") for number in range(200)]
        self.assertEqual(len(set(results)), 200)
        self.assertTrue(all(0 <= seed < 2**31 for seed in results))
        self.assertEqual(seed_of("k0"), results[0])
