"""Conditions: that a check plays what is graded, and that draws of courses stay."""
import hashlib
import itertools
import pathlib
import unittest
from typing import Any
from unittest import mock

from arena_lab.course import check_jobs
from arena_lab.course.check_jobs import (
    CheckJob,
    CheckBudget,
    because,
    conditions_of,
    match_place,
)
from arena_lab.course.course_files import course_of
from arena_lab.play.teams import INSIDE, AgentWords
from arena_lab.rules import networks
from arena_lab.support.fields import FileFormatError

SECRET = "a secret of many"
AGENT = AgentWords(INSIDE, "agent.py {nodes}")
# of the matches that version 0.9.0 draws
DRAWN_BEFORE = "0f092d05c1996872ae7c7bf2dd331926da0e73bee5b37611fdf710710644b3df"
TEAM = '[[team]]\nname = "a"\nfiles = ["."]\ncommand = "x {port} {key}"\n'


class Draws(unittest.TestCase):
    def test_draws_of_courses_that_were_graded_stay(self) -> None:
        digest = hashlib.sha256()
        for nets, holes, extra in itertools.product(
            ('["ring:6"]', '["hypercube:3", "ring:40"]'),
            ("2", '"by seed"', '"drawn"', "[3]", '"all"'),
            (
                "",
                "home = 1\n",
                'ports = "given"\n',
                'ports = "shuffled:3"\n',
                "dark = [[1, 0]]\n",
            ),
        ):
            text = f'title = "t"\nnetworks = {nets}\nholes = {holes}\n{extra}{TEAM}'
            course = course_of(text, pathlib.Path("."), SECRET)
            draw = course.conditions
            for case in course.cases():
                row = (case, draw.fixture(case), draw.seed(case))
                digest.update(repr(row).encode())
        self.assertEqual(digest.hexdigest(), DRAWN_BEFORE)


class Conditions(unittest.TestCase):
    """What a file says to a check."""

    def of(self, **extra: Any) -> check_jobs.Conditions:
        results = {"networks": ["ring:6", "hypercube:3"], "holes": 2, **extra}
        return conditions_of(results, pathlib.Path("."), AGENT)

    def test_a_course_is_played_by_one_team_and_other_draws(self) -> None:
        text = f'title = "t"\nnetworks = ["ring:6"]\nholes = 2\nseeds = 3\n{TEAM}'
        graded_value = course_of(text, pathlib.Path("."), SECRET).conditions
        second = self.of(networks=["ring:6"], seeds=3, title="t")
        matches = [list(it.cases()) for it in (graded_value, second)]
        self.assertEqual(*map(len, matches))
        places = [{(it.home, it.hole, it.ports) for it in match} for match in matches]
        self.assertEqual(places[0] & places[1], set())

    def test_agents_are_those_of_the_file_or_of_its_first_team(self) -> None:
        for extra, count in (
            ({}, 2),
            ({"agents": "degree"}, 4),
            ({"team": [{"name": "a", "agents": 3}]}, 3),
        ):
            conditions = self.of(**extra)
            case = next(
                case for case in conditions.cases() if case.network == "hypercube:3"
            )
            self.assertEqual(conditions.fixture(case).setup.agents, count)

    def test_a_file_that_is_wrong(self) -> None:
        with self.assertRaisesRegex(FileFormatError, "seeds must be"):
            self.of(seeds=0)

    def test_a_match_more_is_drawn_as_those_of_the_file(self) -> None:
        conditions = self.of(quota=400)
        draw = [conditions.case("ring:6", "slow-links", number) for number in range(40)]
        self.assertEqual({it.home for it in draw}, set(range(6)))
        self.assertEqual(len({it.ports for it in draw}), 40)
        keys = {key for it in draw for key in conditions.fixture(it).keys}
        graded_value = {
            key for case in conditions.cases() for key in conditions.fixture(case).keys
        }
        self.assertEqual((len(keys), keys & graded_value), (80, set()))
        self.assertEqual({conditions.fixture(it).setup.quota for it in draw}, {400})
        plain = conditions.with_named(("home", "ports")).case("ring:6", "fair", 0)
        self.assertEqual((plain.home, plain.ports), (0, None))
        self.assertEqual(match_place(plain), f"ring:6, home 0, black hole {plain.hole}")


class Causes(unittest.TestCase):
    """Which assumption the failures of some matches show."""

    def diagnosis(self, fails: Any, **extra: Any) -> Any:
        """What is said of an agent that fails a match if this says so."""
        results = {"networks": ["ring:6"], "holes": 2, **extra}
        conditions = conditions_of(results, pathlib.Path("."), AGENT)
        job = CheckJob(AGENT, conditions, 1.0, None, 60, True)

        def play(first: Any) -> Any:
            return mock.Mock(has_failed=fails(first.game.match.setup, first.scheduler))

        with mock.patch.object(check_jobs.MatchRequest, "play", play):
            return list(because(job, conditions.case("ring:6", "fair", 0)))

    def test_each_cause(self) -> None:
        plain = networks.network_named("ring:6").links
        for fails, message in (
            (lambda setup, _: setup.links != plain, "the two ends of a link"),
            (lambda setup, _: setup.home != 0, "take what {home} says"),
            (lambda _, by: by is not check_jobs.at_once, "a link takes as long as"),
            (lambda _, by: by != check_jobs.SLOW, "agents act at the same time"),
        ):
            [output] = self.diagnosis(fails)
            self.assertIn(
                f"it solves all of {check_jobs.SAMPLE_SIZE} such matches", output
            )
            self.assertIn(message, output)

    def test_nothing_is_said_of_a_mistake_that_shows_everywhere_or_seldom(self) -> None:
        self.assertEqual(self.diagnosis(lambda *_: True), [])
        self.assertEqual(self.diagnosis(lambda *_: False), [])
        holes = iter([True, *[False] * 100])
        self.assertEqual(self.diagnosis(lambda *_: next(holes)), [])

    def test_what_the_file_names_is_no_cause(self) -> None:
        plain = networks.network_named("ring:6").links
        output = self.diagnosis(
            lambda setup, _: setup.links != plain, ports="shuffled:3"
        )
        self.assertEqual(output, [])


class What(unittest.TestCase):
    def test_what_was_tried_in_words(self) -> None:
        budget = CheckBudget(60.0)
        conditions = conditions_of({"networks": ["ring:3"]}, pathlib.Path("."), AGENT)
        for number in range(20):
            case = conditions.case("ring:3", ("fair", "slow-links")[number % 2], number)
            budget.add("ring:3", conditions.fixture(case), case.scheduler)
        self.assertRegex(
            str(budget),
            r"^on 1 network with \d numberings of ports, from every home base, under fair and slow-links$",
        )
        self.assertLess(budget.seconds_left(), 60.1)
