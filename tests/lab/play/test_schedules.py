"""Schedules in files."""
import pathlib
import unittest
from typing import List, Tuple, cast

from arena_lab.play.bounds import LIMIT
from arena_lab.play.schedulers import ANSWER, WAKE, Choice, ScheduleFollower, MatchView
from arena_lab.play.schedules import (
    ScheduleError,
    Schedule,
    choices_of,
    read_schedule,
    text_of,
)
from arena_lab.play.teams import INSIDE, AgentWords
from arena_lab.rules.fixtures import Fixture
from arena_lab.rules.model import Setup
from arena_lab.rules.networks import ring
from tests.support.output import InTemporary

PATH = pathlib.Path("schedule.txt")
ZERO = Choice(ANSWER, 0)
ONE = Choice(ANSWER, 1)


class Choices(unittest.TestCase):
    def test_lines_of_choices(self) -> None:
        choices = choices_of(PATH, ["answer 0", "# a remark", "", "wake 12"])
        self.assertEqual(choices, [Choice(ANSWER, 0), Choice(WAKE, 12)])

    def test_an_agent_has_one_spelling(self) -> None:
        for line in (
            "answer 00",
            "answer 01",
            "answer +1",
            "answer \u0663",
            "answer",
            "answer 1 2",
            "leave 0",
        ):
            with self.subTest(line), self.assertRaisesRegex(
                ScheduleError, "line 2 is no choice"
            ):
                choices_of(PATH, [line])


class Follows(unittest.TestCase):
    """A schedule that is followed as far as the agents go along."""

    def follow(
        self, schedule: List[Choice], *possible: List[Choice]
    ) -> Tuple[List[Choice], str]:
        following = ScheduleFollower(schedule)
        state = cast(MatchView, None)
        return [following(choices, state) for choices in possible], str(following)

    def test_all_choices(self) -> None:
        made, output = self.follow([ZERO, ONE], [ZERO, ONE], [ZERO, ONE])
        self.assertEqual(
            (made, output), ([ZERO, ONE], "followed all 2 choices of the schedule")
        )

    def test_it_is_left_for_good_at_the_first_choice_that_cannot_happen(self) -> None:
        made, output = self.follow([ZERO, ONE, ZERO], [ZERO, ONE], [ZERO], [ONE])
        self.assertEqual(made, [ZERO, ZERO, ONE])
        self.assertEqual(
            output,
            "followed 1 of 3 choices: the next is `answer 1`, and what may happen there is: answer 0"
            "; 2 fair choices came then",
        )

    def test_it_goes_on_behind_the_last_choice(self) -> None:
        made, output = self.follow([ZERO], [ZERO, ONE], [ONE])
        self.assertEqual(
            (made[1], output),
            (ONE, "followed all 1 choices of the schedule; 1 fair choices came then"),
        )
        self.assertEqual(
            self.follow(
                [ZERO],
            )[1],
            "followed 0 of 1 choices: then nothing could happen any more",
        )

    def test_what_comes_then_is_fair(self) -> None:
        made, _ = self.follow([], *[[ZERO, ONE]] * 200)
        self.assertTrue(60 < made.count(ZERO) < 140)


class Texts(InTemporary):
    def schedule(self, text: str) -> Schedule:
        (self.folder / "schedule.txt").write_text(text)
        return read_schedule(self.folder / "schedule.txt")

    def test_a_schedule_has_its_limit_and_its_naps(self) -> None:
        fixture = Fixture(
            "lab", Setup(3, ring(3).links, 0, [2], 1, 10, 8), ["k"], [], 3
        )
        schedule = Schedule(
            fixture,
            [AgentWords(INSIDE, "examples/agents/ring.py 3")],
            "trial",
            [],
            {},
            0.5,
        )
        text = text_of(schedule)
        self.assertEqual(
            (self.schedule(text).limit, self.schedule(text).fixture.naps), (0.5, 3)
        )
        self.assertIn('"limit":60,', text_of(schedule._replace(limit=60.0)))
        # a schedule of an earlier version has none
        self.assertEqual(self.schedule(text.replace('"limit":0.5,', "")).limit, LIMIT)
        for wrong in ("0", "-1", '"5"', "true", "1e999", "null"):
            with self.subTest(wrong), self.assertRaisesRegex(
                ScheduleError, "its first line is no head"
            ):
                self.schedule(text.replace("0.5", wrong))
