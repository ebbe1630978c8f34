"""Checks the generator of random rehearsals: worked examples, and coverage of
events."""
import collections
import unittest
from typing import Counter

from arena_lab.rules.model import Match, Setup
from arena_lab.rules.rehearsal import Ready, Sessions
from tests.support.drawn_rehearsals import draw_rehearsal

TRIANGLE = [(0, 0, 1, 0), (1, 1, 2, 0), (2, 1, 0, 1)]


class Rehearsals(unittest.TestCase):
    """Rehearses the built-in tournament, and checks the events of random rehearsals."""

    def rehearsal(self) -> Sessions:
        return Sessions(
            [Ready(Match(Setup(3, TRIANGLE, 0, [2], 2, 10, 8)), [], ["ka", "kb"])]
        )

    def test_a_queue_waits_for_its_agent(self) -> None:
        stage = self.rehearsal()
        self.assertEqual(
            stage.bytes_of(
                7,
                b'{"do":"enter","key":"ka"}\n{"do":"depart","port":0}\n{"do":"look"}\n',
            ),
            [
                (7, {"ok": "here", "ports": 2, "from": None, "board": ""}),
                (7, {"ok": "gone"}),
            ],
        )
        self.assertEqual(stage.line(7, None), [])
        arrival = {"ok": "here", "ports": 2, "from": 0, "board": ""}
        self.assertEqual(stage.draw(0, 5), [(7, arrival), (7, arrival)])
        self.assertEqual(
            [event["do"] for event in stage.ready[0].match.log],
            ["enter", "depart", "deliver", "look", "leave"],
        )

    def test_a_close_is_told_to_those_who_wait(self) -> None:
        stage = self.rehearsal()
        for conn, key in enumerate("ab"):
            stage.bytes_of(conn, b'{"do":"enter","key":"k%s"}\n' % key.encode())
        stage.bytes_of(1, b'{"do":"depart","port":1}\n')
        self.assertEqual(stage.draw(0, 0), [])
        self.assertEqual(stage.close(0), [(1, {"ok": "over"})])
        self.assertEqual(stage.bytes_of(0, b" \n{\n"), [(0, {"ok": "over"})])
        self.assertEqual(
            [stage.bytes_of(conn, b'{"do":"look"}\n') for conn in (0, 1)], [[], []]
        )

    def test_denials(self) -> None:
        stage = self.rehearsal()
        lines = [
            b'{"do":"look"}',
            b'{"do":"enter","key":"zz"}',
            b'{"do":"enter","key":"ka"}',
        ] + [b'{"do":"enter","key":"ka"}']
        message = [
            stage.bytes_of(conn, line + b"\n")[0][1] for conn, line in enumerate(lines)
        ]
        self.assertEqual(
            [reply.get("no") for reply in message], ["enter", "key", None, "taken"]
        )

    def test_drawn_rehearsals_have_each_kind_of_call(self) -> None:
        counts: Counter[str] = collections.Counter()
        for agents in range(1, 65):
            rehearsal = draw_rehearsal(agents)
            self.assertEqual(len(rehearsal.script), len(rehearsal.expected))
            counts += rehearsal.events
        expectation = [
            *(f"pool of {size}" for size in range(65)),
            "held",
            "arrival",
            "destroyed",
            "over",
            "bye",
            "noted",
            "here",
            "gone",
            "written",
            "changed",
            "end of an agent",
            *(
                f"no {why}"
                for why in (
                    "enter",
                    "key",
                    "taken",
                    "twice",
                    "spent",
                    "line",
                    "port",
                    "long",
                )
            ),
        ]
        self.assertEqual([kind for kind in expectation if not counts[kind]], [])
