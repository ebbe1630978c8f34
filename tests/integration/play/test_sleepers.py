"""What `run` and `explore` find of agents that sleep, crash or are refused, and of
links that are held: a search that forgets a wake or a nap, that wakes nobody at a
write, or that crosses a held link comes to other ends."""
import argparse
from typing import Dict, List
from unittest import mock

from arena_lab.__main__ import main, parser
from arena_lab.command_line.arguments import games_of
from arena_lab.rules.networks import ring
from arena_lab.search import model_search
from tests.support.matches import FAULTY, RING
from tests.support.output import InTemporary, run_call
from tests.support.tournaments import match, write_cup

# The black hole of ring:3 is node 1. One agent walks by node 2, writes x and then y at
# home, and accuses.
AGENTS = (
    FAULTY
    + """
def works(agent, key):
    agent.enter(key)
    agent.depart(1)
    agent.depart(0)
    agent.write("", "x")
    agent.write("x", "y")
    agent.accuse(0)

def leaves_and_sleeps(agent, key, sleep):
    agent.enter(key)
    agent.leave()
    sleep(1)
    sleep(1)

def is_wrong_if_it_sees_x_twice(agent, key, sleep):
    agent.enter(key)
    seen = 0
    while True:
        sleep(1)
        board = agent.look().board
        if board == "y":
            agent.leave()
            return
        seen += board == "x"
        if seen == 2:
            agent.accuse(1)
            return

def wants_y_twice(agent, key, sleep):
    agent.enter(key)
    seen = 0
    while seen < 2:
        sleep(1)
        seen += agent.look().board == "y"
    agent.leave()

def wants_y(agent, key, sleep):
    agent.enter(key)
    while True:
        sleep(1)
        if agent.look().board == "y":
            agent.leave()
            return

def goes(agent, key):
    agent.enter(key)
    agent.depart(1)
    agent.leave()

def solves(agent, key):
    agent.enter(key)
    agent.depart(1)
    agent.accuse(1)

def closes(agent, key):
    agent.enter(key)
    agent.close()

def touches(agent, key):
    agent.enter(key)
    agent.write("", "")
    agent.write("", "ready")
    agent.depart(1)
    agent.accuse(1)

def wants_news_at_each_wake(agent, key, sleep):
    agent.enter(key)
    sleep(1)
    if not agent.look().board:
        sleep(1)
        if agent.look().board != "ready":
            raise RuntimeError("woken without news")
    agent.leave()

def sleeps_before_it_enters(agent, key, sleep):
    sleep(1)
    if not agent.enter(key).board:
        sleep(1)
        if agent.look().board != "ready":
            raise RuntimeError("woken without news")
    agent.leave()
"""
)

# sleepers wake once after each change alone
WITHOUT_SPURIOUS_WAKEUPS = ("--spurious-wakeups", "0")


class Sleepers(InTemporary):
    def setUp(self) -> None:
        super().setUp()
        (self.folder / "agents.py").write_text(AGENTS, encoding="utf-8")

    def agents(self, names: List[str]) -> List[str]:
        return [
            word
            for name in names
            for word in ("--agent", f"{self.folder}/agents.py:{name}")
        ]

    def worst(self, names: List[str], *words: str) -> model_search.End:
        """The worst end of a match of these agents."""
        args: argparse.Namespace = parser().parse_args(
            ["explore", *WITHOUT_SPURIOUS_WAKEUPS, *words, *self.agents(names)]
        )
        (game,) = games_of(args)
        end = model_search.explore_match(
            game.fixtures()[-1], game.agents, mock.Mock()
        ).explorer.worst
        assert end is not None
        return end

    def test_what_sleepers_come_to(self) -> None:
        ends = {
            "is_wrong_if_it_sees_x_twice": (True, "wrong"),
            "leaves_and_sleeps": (True, "solved"),
            "wants_y_twice": (True, "unfinished"),
            "wants_y": (False, "solved"),
        }
        for name, expectation in ends.items():
            with self.subTest(name):
                end = self.worst([name, "works"], "--network", "ring:3", "--hole", "1")
                self.assertEqual((end.has_failed, end.verdict.outcome), expectation)

    def test_both_call_the_same_a_failure(self) -> None:
        agents = {
            "crashes_when_it_is_over 0": ("solves", True),
            "refused": ("solves", True),
            "closes": ("solves", False),
            "wants_news_at_each_wake": ("touches", False),
            "sleeps_before_it_enters": ("touches", False),
        }
        for name, (agent, fails) in agents.items():
            for position in (["--hole", "1"], ["--home", "1", "--hole", "2"]):
                with self.subTest(name, place=position):
                    words = ["--network", "ring:3", *position]
                    self.assertEqual(
                        self.worst([name, agent], *words).has_failed, fails
                    )
                    self.assertEqual(self.has_failed([name, agent], *words), fails)

    def has_failed(self, names: List[str], *words: str) -> bool:
        """Returns whether some of twenty drawn schedules fails."""
        conditions = [
            "run",
            *WITHOUT_SPURIOUS_WAKEUPS,
            *words,
            *self.agents(names),
            "--runs",
            "20",
            "--engine",
            "model",
        ]
        return bool(run_call(main, conditions).status == 1)

    def test_sleepers_that_may_nap_wake_without_a_change(self) -> None:
        for name in ("wants_news_at_each_wake", "sleeps_before_it_enters"):
            for naps, fails in (("0", False), ("1", True)):
                with self.subTest(name, naps=naps):
                    words = [
                        "--network",
                        "ring:3",
                        "--hole",
                        "1",
                        "--spurious-wakeups",
                        naps,
                    ]
                    self.assertEqual(
                        self.worst([name, "touches"], *words).has_failed, fails
                    )
                    self.assertEqual(self.has_failed([name, "touches"], *words), fails)

    def test_nobody_arrives_over_a_held_link(self) -> None:
        cup = write_cup(
            self.folder, [match("red", ring(3), [1], quota=10, board=8, held=[(0, 1)])]
        )
        end = self.worst(["goes", "goes"], "--tournament", str(cup))
        self.assertEqual((end.verdict.outcome, end.verdict.moves), ("silent", 2))

    def test_the_most_moves_for_each_black_hole(self) -> None:
        maximum: Dict[int, int] = {}
        args: argparse.Namespace = parser().parse_args(
            ["explore", "--network", "ring:6", "--agent", RING.words]
        )
        (game,) = games_of(args)
        for fixture in game.fixtures():
            end = model_search.explore_match(
                fixture, game.agents, mock.Mock()
            ).explorer.worst
            assert end is not None and not end.has_failed
            maximum[fixture.setup.holes[0]] = end.verdict.moves
        self.assertEqual(maximum, {1: 23, 2: 23, 3: 19, 4: 19, 5: 19})
