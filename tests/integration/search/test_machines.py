"""What agents hold and do next does not depend on the order in which it is asked:
programs that wait go on, and others are played again. Programs that have ended are not
kept."""
import collections
import itertools
import unittest
from typing import Dict, List, Tuple

from arena_lab.__main__ import parser
from arena_lab.command_line.arguments import games_of
from arena_lab.play.players import DONE
from arena_lab.rules.model import GONE, OVER, spell
from arena_lab.search.agent_processes import SAYS, STOP, AgentStep
from arena_lab.search.machines import Machines
from tests.support.matches import RING

BOARDS = ("", "right going, left new", "right safe, left told 2")
WRITTEN = spell({"ok": "written"})
HEARD = [
    spell({"ok": "here", "ports": 2, "from": outcome, "board": board})
    for outcome in (0, 1)
    for board in BOARDS
]
DEPTH = 6
History = Tuple[str, ...]


def news_of(step: AgentStep) -> List[str]:
    """Returns the possible next news of an agent after this step."""
    if step.does == STOP:
        return [*HEARD, spell(OVER)]
    if step.does != SAYS:
        return []
    if b"depart" in step.line:
        return [spell(GONE)]
    if b"write" in step.line:
        return [
            WRITTEN,
            *(spell({"ok": "changed", "board": board}) for board in BOARDS),
        ]
    return HEARD[:2]


class Asked:
    """What is asked of a team's first agent, in one order or the other."""

    def __init__(self, is_backwards: bool) -> None:
        [game] = games_of(
            parser().parse_args(
                ["explore", "--network", "ring:5", "--agent", RING.words]
            )
        )
        self.machines = Machines(game.fixtures()[0], game.agents, game.limit)
        self.found: Dict[History, int] = {}
        self._is_backwards = is_backwards
        self.machines.start()
        try:
            self._ask(self.machines.begin(0), ())
            self.left = [
                first.player.state
                for program in self.machines._left.programs.values()
                for first in program
            ]
        finally:
            self.machines.stop()

    def _ask(self, memory: int, history: History) -> None:
        self.found[history] = memory
        step = self.machines.steps[memory]
        is_over = step.does == STOP and history and history[-1] != spell(GONE)
        if len(history) == DEPTH or is_over:
            return
        all_news = news_of(step)
        for news in reversed(all_news) if self._is_backwards else all_news:
            self._ask(self.machines.next(memory, news), (*history, news))

    def step(self, history: History) -> AgentStep:
        return self.machines.steps[self.found[history]]


class Order(unittest.TestCase):
    def test_the_order_of_questions_changes_no_answer(self) -> None:
        first = Asked(False)
        second = Asked(True)
        self.assertEqual(first.found.keys(), second.found.keys())
        self.assertGreater(len(first.found), 100)
        for history in first.found:
            self.assertEqual(first.step(history), second.step(history), history)
        # both merge the same histories, and only those of programs that have ended
        pairs = {
            (memory, second.found[history]) for history, memory in first.found.items()
        }
        self.assertEqual(len(pairs), len(set(first.found.values())))
        self.assertEqual(len(pairs), len(set(second.found.values())))
        by_memory = collections.Counter(first.found.values())
        self.assertTrue(
            all(
                first.machines.steps[it].does == STOP
                for it, count in by_memory.items()
                if count > 1
            )
        )
        for request, state in itertools.chain(
            ((first, it) for it in first.left), ((second, it) for it in second.left)
        ):
            self.assertNotEqual(state, DONE, request)
