"""The Python model as an engine: what connections are sent."""
import unittest
from typing import List

from arena_lab.rules import networks
from arena_lab.rules.fixtures import Fixture, fixture_of
from arena_lab.rules.model import Setup
from arena_lab.rules.rehearsal import Rehearsal

ENTER = [b'{"do":"enter","key":"k0"}', b'{"do":"enter","key":"k1"}']
HERE = '{"board":"","from":null,"ok":"here","ports":2}'
GONE = '{"ok":"gone"}'
OVER = '{"ok":"over"}'
AT_1 = '{"board":"","from":1,"ok":"here","ports":2}'
DEPART = b'{"do":"depart","port":0}'


def ring_fixture() -> Fixture:
    return fixture_of(Setup(4, networks.ring(4).links, 0, [2], 2, 10, 8))


class Connections(unittest.TestCase):
    def setUp(self) -> None:
        self.engine = Rehearsal(ring_fixture())

    def feed(self, number: int, *lines: bytes) -> List[str]:
        return [text for line in lines for _, text in self.engine.feed(number, line)]

    def test_denials(self) -> None:
        self.assertEqual(self.feed(0, b'{"do":"look"}', ENTER[0]), ['{"no":"enter"}'])
        self.assertEqual(
            self.feed(1, b'{"do":"enter","key":"k9"}', ENTER[0]), ['{"no":"key"}']
        )
        self.assertEqual(self.feed(2, ENTER[0]), [HERE])
        self.assertEqual(self.feed(3, ENTER[0], ENTER[1]), ['{"no":"taken"}'])

    def test_lines_wait_while_the_agent_is_on_a_link(self) -> None:
        self.assertEqual(
            self.feed(5, ENTER[1], DEPART, b'{"do":"look"}', b" ", b"jump"),
            [HERE, GONE],
        )
        self.assertEqual(
            self.engine.draw(7), [(5, AT_1), (5, AT_1), (5, '{"no":"line"}')]
        )
        self.assertEqual(self.engine.draw(0), [])

    def test_the_end_of_an_input_makes_the_agent_leave(self) -> None:
        self.feed(0, ENTER[0], DEPART)
        self.assertEqual(self.engine.end(0), [])
        self.assertEqual(self.engine.match.log[-1]["do"], "depart")
        self.assertEqual(self.engine.draw(0), [(0, AT_1)])
        self.assertEqual(
            [event["do"] for event in self.engine.match.log],
            ["enter", "depart", "deliver", "leave"],
        )

    def test_the_close_is_told_to_those_on_links_by_rising_number(self) -> None:
        for number, enter in ((7, ENTER[0]), (3, ENTER[1])):
            self.feed(number, enter, DEPART)
        self.assertEqual(self.engine.close(), [(3, OVER), (7, OVER)])
        self.assertEqual(self.engine.close(), [])
        self.assertEqual(self.feed(3, b'{"do":"look"}'), [])

    def test_a_held_link_lets_nobody_arrive(self) -> None:
        self.engine = Rehearsal(ring_fixture()._replace(held=[(0, 0)]))
        self.feed(0, ENTER[0], DEPART)
        self.assertEqual(self.engine.draw(0), [])

    def test_the_script_is_kept(self) -> None:
        self.feed(0, ENTER[0])
        self.engine.draw(3)
        self.engine.end(0)
        self.engine.close()
        self.assertEqual(
            self.engine.script, [b"0 " + ENTER[0], b"draw 0 3", b"end 0", b"close 0"]
        )
