"""Checks the drawn kill times and the counting of a replay's events."""
import unittest

from tests import TOP
from tests.program import killed_servers
from tests.program.killed_servers import (
    LONG,
    LONG_TURNS,
    SHORT,
    SHORT_TURNS,
    kills,
    told_events,
)


class Kills(unittest.TestCase):
    def test_a_seed_gives_the_same_kills(self) -> None:
        self.assertEqual(kills(10, 3), kills(10, 3))
        self.assertNotEqual(kills(10, 3), kills(10, 4))

    def test_contests_are_short_and_long_in_turn(self) -> None:
        draw = kills(6, 1)
        self.assertEqual([kill.turns for kill in draw], [SHORT_TURNS, LONG_TURNS] * 3)
        for kill in draw:
            self.assertLessEqual(
                kill.after, SHORT if kill.turns == SHORT_TURNS else LONG
            )


class Replays(unittest.TestCase):
    def test_commands_are_counted_and_nothing_else(self) -> None:
        replay = (TOP / "examples" / "first0.jsonl").read_text()
        lines = replay.splitlines()[1:]
        commands = [
            line for line in lines if '"agent"' in line and '"do":"deliver"' not in line
        ]
        self.assertTrue(0 < len(commands) < len(lines) - 2)
        self.assertEqual(told_events(replay), len(commands))

    def test_no_program_leaves_nothing(self) -> None:
        self.assertIsNotNone(killed_servers.fault_of("/bin/false", kills(1, 1)[0]))
