"""The stand-in: its oblivious schedule tells an agent nothing of others, and who does
not read keeps nobody waiting."""
import socket
import threading
import unittest
from typing import List, Optional

from arena_lab.play.server import Contest
from arena_lab.rules.delays import Delays
from arena_lab.rules.fixtures import (
    Tournament,
    fixture_of,
    read_tournament,
    tournament_text,
)
from arena_lab.rules.model import AWAY, Setup
from arena_lab.rules.networks import ring
from tests.support.output import InTemporary

DELAYS = Delays(3, 4)
SEED = "07" * 32


def contest_on_ring(delays: Optional[Delays]) -> Contest:
    """A contest of two agents on a ring."""
    network = ring(6)
    fixture = fixture_of(Setup(network.nodes, network.links, 0, [5], 2, 1000, 64))
    return Contest(Tournament(SEED, [fixture], delays))


def turns_of_moves(
    delays: Optional[Delays], is_other_destroyed: bool, moves: int
) -> List[int]:
    """After how many turns each move of agent 0 ends, on a ring whose black hole agent
    1 departs for or not."""
    contest = contest_on_ring(delays)
    for agent in range(2):
        contest.take(agent, b'{"do":"enter","key":"k%d"}' % agent)
    if is_other_destroyed:
        contest.take(1, b'{"do":"depart","port":1}')
    results = []
    port = 0
    turns = 0
    walker = contest.matches[0].agents[0]
    for _ in range(moves):
        contest.take(0, b'{"do":"depart","port":%d}' % port)
        while walker.standing == AWAY:
            contest.turn(0)
            turns += 1
        results.append(turns)
        port = walker.came
    return results


class Clients(unittest.TestCase):
    def test_one_that_does_not_read_keeps_nobody_waiting(self) -> None:
        contest = contest_on_ring(None)
        (ours, theirs) = socket.socketpair()
        threading.Thread(target=contest.serve, args=(0, theirs), daemon=True).start()
        with ours:
            ours.settimeout(0.5)
            ours.sendall(b'{"do":"enter","key":"k0"}\n')
            with self.assertRaises(TimeoutError):
                while True:
                    ours.sendall(b'{"do":"look"}\n' * 1000)
            thread = threading.Thread(
                target=contest.take, args=(1, b'{"do":"enter","key":"k1"}'), daemon=True
            )
            thread.start()
            thread.join(20)
            self.assertFalse(thread.is_alive())


class DelaysTest(InTemporary):
    def test_the_delay_of_a_word(self) -> None:
        rows = {0: 1, 1: 2, 5: 3, 2: 4, 6: 5, 10: 6, 14: 7, 18: 4, 3: 0, 7: 0}
        self.assertEqual({word: DELAYS.by_word(word) for word in rows}, rows)

    def test_turns_tell_nothing_of_who_is_destroyed(self) -> None:
        self.assertEqual(
            *(
                turns_of_moves(DELAYS, destroyed_value, 40)
                for destroyed_value in (False, True)
            )
        )
        self.assertNotEqual(
            *(
                turns_of_moves(None, destroyed_value, 40)
                for destroyed_value in (False, True)
            )
        )

    def test_agents_wait_for_their_delays(self) -> None:
        means = [
            turns_of_moves(Delays(scales, 4), False, 200)[-1] / 200 for scales in (0, 3)
        ]
        self.assertLess(means[0] + 1, means[1])

    def test_a_tournament_with_delays_is_written_and_read(self) -> None:
        path = self.folder / "t.toml"
        for delays in (None, DELAYS):
            path.write_text(
                tournament_text("0" * 64, [], delays)
                + ("" if delays else "match = []\n")
            )
            text = path.read_text()
            self.assertEqual(text.splitlines()[0], f"version = {3 if delays else 2}")
            if delays:
                path.write_text(text + "match = []\n")
            self.assertEqual(read_tournament(str(path)).delays, delays)
