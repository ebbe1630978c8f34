"""Schedules that are made small."""
import unittest

from arena_lab.play.schedulers import ANSWER, Choice, in_runs
from arena_lab.search.minimising import Cut, Runs, in_words, runs_of, tidy


class Small(unittest.TestCase):
    def test_runs_are_the_choices_again(self) -> None:
        numbers = [0, 0, 1, 1, 2, 0, 1, 0, 0]
        scheduler = in_runs(runs_of(numbers))
        choices = [Choice(ANSWER, agent) for agent in range(3)]
        self.assertEqual(
            [choices.index(scheduler(choices, None)) for _ in numbers], numbers
        )
        self.assertEqual(runs_of(numbers), [(0, 2), (1, 2), (2, 1), (0, 1), (1, 1)])
        self.assertEqual(
            tidy([(1, 2), (1, 3), (0, 0), (2, 1), (0, 4)]), [(1, 5), (2, 1)]
        )

    def test_a_schedule_is_made_small(self) -> None:
        def fails(runs: Runs) -> bool:
            numbers = [which for which, times in runs for _ in range(times)]
            return 2 in numbers and 1 in numbers[numbers.index(2) :]

        cut = Cut([(0, 9), (1, 4), (2, 7), (0, 3), (3, 2), (1, 8)], fails, 1000)
        self.assertEqual(cut.runs, [(2, 1), (1, 1)])
        few = Cut([(0, 9), (1, 4), (2, 7), (0, 3), (3, 2), (1, 8)], fails, 3)
        self.assertEqual(few.tried, 3)
        self.assertTrue(fails(few.runs))

    def test_a_team_that_always_fails_needs_no_choice(self) -> None:
        cut = Cut([(1, 4), (2, 7)], lambda runs: True, 1000)
        self.assertEqual((cut.runs, cut.tried), ([], 1))
        self.assertEqual(in_words([]), "of the agents that can go on, always the first")
        self.assertEqual(
            in_words([(0, 7), (1, 1)]),
            "of the agents that can go on, the first 7 times, then the second once, then always the first",
        )
