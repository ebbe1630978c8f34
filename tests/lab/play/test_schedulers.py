"""Whom the schedulers choose."""
import unittest
from types import SimpleNamespace
from typing import Any, List

from arena_lab.play import schedulers
from arena_lab.play.schedulers import (
    ANSWER,
    ARRIVE,
    WAKE,
    Choice,
    ScheduleEndedError,
    ImpossibleError,
)

ANSWERS = [Choice(ANSWER, agent) for agent in range(3)]
# a seed whose links have other paces
SLOW = 1
ARRIVALS = [Choice(ARRIVE, agent) for agent in range(3)]


def state(pool: List[int]) -> Any:
    """How a match stands whose agents departed in this order, agent i from node i by
    port 0."""
    agents = [SimpleNamespace(node=agent, port=0) for agent in range(3)]
    return SimpleNamespace(match=SimpleNamespace(pool=pool, agents=agents))


class Schedulers(unittest.TestCase):
    def test_a_seed_gives_the_same_choices(self) -> None:
        for name, maker in schedulers.SCHEDULER_MAKERS.items():
            with self.subTest(name):
                first, two = (
                    [choose(ARRIVALS, state([2, 0, 1])) for _ in range(50)]
                    for choose in (maker(1), maker(1))
                )
                self.assertEqual(first, two)

    def test_each_that_draws_chooses_each_in_the_end(self) -> None:
        for name in ("fair", "slow-agents", "slow-links"):
            choose = schedulers.SCHEDULER_MAKERS[name](3)
            with self.subTest(name):
                self.assertEqual(
                    {choose(ARRIVALS, state([0, 1, 2])) for _ in range(5000)},
                    set(ARRIVALS),
                )

    def test_slow_agents_are_slow_for_the_whole_match(self) -> None:
        choose = schedulers.slow_agents(1)
        counts = [0, 0, 0]
        for _ in range(3000):
            counts[choose(ANSWERS, state([])).agent] += 1
        self.assertLess(min(counts) * 3, max(counts))

    def test_slow_links_are_slow_for_the_whole_match_and_answers_are_not(self) -> None:
        choose = schedulers.slow_links(SLOW)
        arrival = [0, 0, 0]
        for _ in range(3000):
            arrival[choose(ARRIVALS, state([0, 1, 2])).agent] += 1
        self.assertLess(min(arrival) * 3, max(arrival))
        answer = [0, 0, 0]
        for _ in range(3000):
            answer[choose(ANSWERS, state([])).agent] += 1
        self.assertGreater(min(answer) * 3, max(answer))

    def test_the_last_that_departed_arrives_first_once_nobody_is_to_be_answered(
        self,
    ) -> None:
        choose = schedulers.last_departed(0)
        self.assertEqual(choose(ARRIVALS, state([1, 2, 0])), Choice(ARRIVE, 0))
        self.assertEqual(choose([ARRIVALS[0], ANSWERS[1]], state([0])), ANSWERS[1])

    def test_the_starved_wait_for_all_others(self) -> None:
        choose = schedulers.starved_scheduler(1)
        self.assertNotIn(
            Choice(ANSWER, 1), {choose(ANSWERS, state([])) for _ in range(100)}
        )
        self.assertEqual(choose([Choice(WAKE, 1)], state([])), Choice(WAKE, 1))

    def test_runs(self) -> None:
        choose = schedulers.in_runs([(1, 2), (2, 1), (4, 1)])
        lone = [ANSWERS[0]]
        results = [
            choose(choices, state([])).agent
            for choices in (ANSWERS, lone, ANSWERS, ANSWERS, ANSWERS, ANSWERS)
        ]
        self.assertEqual(results, [1, 0, 1, 2, 1, 0])

    def test_a_recorded_schedule(self) -> None:
        choose = schedulers.recorded_scheduler([ANSWERS[1], ARRIVALS[0]])
        self.assertEqual(choose(ANSWERS, state([])), ANSWERS[1])
        self.assertRaises(ImpossibleError, choose, ANSWERS, state([]))
        self.assertRaises(ScheduleEndedError, choose, ANSWERS, state([]))
