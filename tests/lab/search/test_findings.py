"""What the program finds is read into values, and `explore` and the lab of Python
programs say of them what they said of its lines."""
import json
import unittest
from typing import Any, Dict, List, Tuple
from unittest import mock

from arena_lab.play.teams import INSIDE, AgentWords, Game
from arena_lab.rules.fixtures import Fixture
from arena_lab.rules.model import Setup, Verdict
from arena_lab.rules.networks import ring
from arena_lab.search import driver, explore_reports, sample_reports, search_results
from arena_lab.search.findings import (
    Breaks,
    Comes,
    Endless,
    Exceeds,
    ExploreAnswer,
    Fails,
    Finding,
    Solves,
    answer_of,
    turns_of,
    verdict_of,
)
from arena_lab.search.match_results import MatchResult

COUNTS = {"states": 5, "memories": 5, "stances": 6, "boards": 2}
DRAWN = {
    "solved": 3,
    "failed": 1,
    "turns": 20,
    "moves": [[1, 3], [4, 1]],
    "lost": [[0, 4]],
    "memories": 6,
}
# lines of the program, what they say, and what `explore` prints of them
LINES: List[Tuple[Dict[str, Any], Finding, str]] = [
    (
        {
            "found": "solves",
            "moves": 1,
            "lost": 0,
            "turns": 4,
            "naps": 2,
            "commands": [2, 0],
        },
        Solves(1, 0, 4),
        "5 states, every schedule solves, most moves 1",
    ),
    (
        {
            "found": "fails",
            "outcome": "silent",
            "moves": 2,
            "lost": 1,
            "schedule": [1, 0],
        },
        Fails("silent", 2, 1, (1, 0)),
        "5 states, a schedule fails, its moves 2",
    ),
    (
        {"found": "breaks", "agent": 1, "failure": "asleep", "schedule": [0, 1]},
        Breaks(1, "asleep", (0, 1)),
        "5 states, under a schedule agent 1 sleeps, and nothing changes any more",
    ),
    (
        {"found": "endless", "schedule": [0], "round": [1, 0], "fair": False},
        Endless((0,), (1, 0), False),
        "5 states, a schedule goes on for ever, and it is not fair: an agent that can move never has a turn",
    ),
]
DRAWS: List[Tuple[Dict[str, Any], Finding, str]] = [
    (
        {"found": "comes", "moves": 4, "lost": 0, "schedule": [0, 0]},
        Comes(4, 0, (0, 0)),
        "",
    ),
    (
        {"found": "breaks", "agent": 0, "failure": "program", "schedule": []},
        Breaks(0, "program", ()),
        ", under a schedule agent 0 fails",
    ),
]
SAID = (
    "3 solved, 1 failed, moves least 1 mean 1.8 median 1 most 4, 20 steps, 10 a second"
)
FIXTURE = Fixture("lab", Setup(3, ring(3).links, 0, [2], 1, 10, 8), ["k"], [])
GAME = Game("ring:3", ring(3), [AgentWords(INSIDE, "ring.py")], 0, [], [], 10, 8, 1, 5)


def read_result(
    text: Dict[str, Any], counts: Dict[str, Any], *modules: Dict[str, Any]
) -> MatchResult:
    """A match of which the program said this, after two seconds."""
    return MatchResult(FIXTURE, answer_of(text, counts, modules, 2.0))


class Findings(unittest.TestCase):
    def test_lines_are_read_and_told(self) -> None:
        for text_sent, line, output in LINES:
            with self.subTest(text_sent["found"]):
                result = read_result(text_sent, COUNTS)
                self.assertEqual(result.answer, ExploreAnswer(line, 2.0, 5))
                self.assertEqual(
                    explore_reports.line_of(result),
                    f"home 0 holes [2]: {output}, 2.0 s",
                )
                self.assertEqual(
                    (result.is_whole(), result.has_failed()),
                    (True, text_sent["found"] != "solves"),
                )

    def test_drawn_schedules_are_read_and_told(self) -> None:
        for text_sent, draw, extra in DRAWS:
            with self.subTest(text_sent["found"]):
                result = read_result(text_sent, DRAWN)
                self.assertEqual(
                    (result.answer.finding, result.answer.states), (draw, None)
                )
                self.assertEqual(
                    sample_reports.line_of(result),
                    f"home 0 holes [2]: {SAID}{extra}, 2.0 s",
                )

    def test_more_commands_than_the_quota_are_no_result(self) -> None:
        result = read_result({"found": "exceeds", "agent": 1, "commands": 11}, COUNTS)
        self.assertEqual(
            (result.answer.finding, result.is_whole(), result.has_failed()),
            (Exceeds(1, 11), False, False),
        )
        self.assertEqual(
            sample_reports.line_of(result),
            "home 0 holes [2]: under a schedule agent 1 uses 11 commands, "
            "and its quota is less, 2.0 s",
        )

    def test_a_module_that_fails_is_told_with_its_function(self) -> None:
        failures = {"module": "31", "arguments": [8], "failure": "fuel", "function": 7}
        second = {"module": "32"}
        for agent, modules in (
            (0, [failures]),
            (1, [failures]),
            (0, [failures, second]),
            (1, [second, failures]),
        ):
            result = read_result(
                {
                    "found": "breaks",
                    "agent": agent,
                    "failure": "program",
                    "schedule": [],
                },
                COUNTS,
                *modules,
            )
            self.assertIn(
                f"agent {agent} fails: it burns more fuel than a command has in function 7",
                explore_reports.line_of(result),
            )

    def test_a_match_that_was_stopped_says_why(self) -> None:
        result = MatchResult(FIXTURE, ExploreAnswer(None, 2.0, why="stopped"))
        for line in (explore_reports.line_of, sample_reports.line_of):
            self.assertEqual(line(result), "home 0 holes [2]: stopped, 2.0 s")
        self.assertEqual((result.is_whole(), result.has_failed()), (False, False))

    def test_a_round_is_played_behind_its_schedule(self) -> None:
        self.assertEqual(turns_of(Endless((0,), (1, 0), True)), (0, 1, 0))

    def test_what_a_schedule_comes_to(self) -> None:
        result = Comes(4, 1, ()), Fails("silent", 2, 1, ()), Breaks(0, "", ())
        self.assertEqual(
            list(map(verdict_of, result)),
            [Verdict("solved", 4, 1), Verdict("silent", 2, 1), None],
        )

    def test_rows_of_python_programs_are_those_of_the_lines(self) -> None:
        start = {"network": "ring:3", "nodes": 3, "home": 0, "holes": [2]}
        end = {"seconds": 2.0, "why": ""}
        for text_sent, counts, draw in [
            *((text_sent, COUNTS, None) for text_sent, *_ in LINES),
            (DRAWS[0][0], DRAWN, 4),
        ]:
            with self.subTest(text_sent["found"]):
                row = search_results.row_of(GAME, read_result(text_sent, counts))
                output = {
                    name: text_sent.get(name) for name in ("moves", "lost", "turns")
                }
                self.assertEqual(
                    json.dumps(row),
                    json.dumps(
                        {
                            **start,
                            "found": text_sent["found"],
                            "states": counts.get("states"),
                            **output,
                            "drawn": draw,
                            **end,
                        }
                    ),
                )


class Driver(unittest.TestCase):
    """What is tried of a game with two matches."""

    def results(
        self, *answers: ExploreAnswer, after: driver.After = lambda trial, _: trial
    ) -> List[MatchResult]:
        """The matches that are tried, if the program answers so."""
        job = driver.ExploreJob(GAME.matches(), "arena", 10, 0)
        with mock.patch.object(
            driver, "run_search", side_effect=answers
        ), mock.patch.object(driver, "Machines") as machines:
            machines.return_value.configure_mock(modules=[], seen=frozenset)
            machines.return_value.beside.configure_mock(checked=0, merged=0)
            search = driver.Search(job, after=after)
            results = list(search.results(mock.Mock()))
        machines.return_value.stop.assert_called_once_with()
        self.assertEqual(search.tries, results)
        return results

    def test_matches_are_tried_up_to_one_that_fails_or_is_stopped(self) -> None:
        solves = ExploreAnswer(Solves(1, 0, 4), 1.0, 5)
        answer = ExploreAnswer(None, 1.0)
        self.assertEqual(
            [result.fixture.setup.holes for result in self.results(solves, solves)],
            [[1], [2]],
        )
        for last in (
            answer,
            ExploreAnswer(Breaks(0, "program", ()), 1.0, 5),
            ExploreAnswer(Exceeds(0, 11), 1.0, 5),
        ):
            self.assertEqual(
                [result.answer for result in self.results(last, solves)], [last]
            )

    def test_what_is_made_of_a_match_says_whether_it_goes_on(self) -> None:
        beside = mock.Mock(is_whole=True, rank=lambda: (False, 3))
        exceeds = ExploreAnswer(Exceeds(0, 11), 1.0, 5)
        solves = ExploreAnswer(Solves(1, 0, 4), 1.0, 5)
        tries = self.results(
            exceeds,
            solves,
            after=lambda trial, _: trial._replace(
                beside=beside if trial.answer is exceeds else None
            ),
        )
        self.assertEqual([it.beside for it in tries], [beside, None])
