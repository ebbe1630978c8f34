"""What is said of drawn schedules: counts of all matches, the worst of all, and
failures that are counted alone."""
import unittest
from typing import Any, List
from unittest import mock

from arena_lab.search import sample_reports
from arena_lab.rules.engines import EnginesDifferError
from arena_lab.rules.fixtures import Fixture
from arena_lab.rules.model import Setup
from arena_lab.rules.networks import ring
from arena_lab.search.findings import Comes, ExploreAnswer, SampleCounts
from arena_lab.search.match_results import MatchResult
from arena_lab.search.program_search import SampleRequest
from tests.support.output import run_call


def match_result(
    hole: int, moves: int, lost: int, solved_count: int = 7, failures: int = 0
) -> MatchResult:
    """A match whose drawn schedules come to this."""
    fixture = Fixture("lab", Setup(3, ring(3).links, 0, [hole], 1, 10, 8), ["k"], [])
    return MatchResult(
        fixture,
        ExploreAnswer(
            Comes(moves, lost, ()), 1.0, samples=SampleCounts(solved_count, failures, 9)
        ),
    )


class Drawing(unittest.TestCase):
    def output(self, tries: List[MatchResult], hunt: Any = None) -> str:
        search = mock.Mock(tries=tries, checks="checked", seconds=1.25)
        draws = SampleRequest(7, 1, "fair", hunt)
        with mock.patch.object(sample_reports, "keep"):
            status, output, _ = run_call(
                sample_reports.report_samples, mock.Mock(), draws, search
            )
        self.assertEqual(status, 0)
        return output

    def test_counts_are_those_of_all_matches_and_the_seconds_those_that_passed(
        self,
    ) -> None:
        self.assertIn(
            "14 drawn schedules, 18 steps in 1.2 s: none of them fails",
            self.output([match_result(2, 1, 0)] * 2),
        )

    def test_the_worst_of_all_matches_is_told(self) -> None:
        few = match_result(1, 2, 1)
        many = match_result(2, 3, 0)
        for tries in ([few, many], [many, few]):
            self.assertIn(
                "holes [2], solved moves 3 lost 0", self.output(tries, "moves")
            )
            self.assertIn(
                "holes [1], solved moves 2 lost 1", self.output(tries, "lost")
            )

    def test_a_failure_that_is_only_counted_is_no_success(self) -> None:
        with self.assertRaisesRegex(
            EnginesDifferError,
            "counts 2 drawn schedules that fail, and tells one that solves",
        ):
            self.output([match_result(2, 1, 0, 5, 2)])
