"""Makes the schedules of failed matches small, one of those that failed alike."""
import time
from typing import Dict, Iterator, List, NamedTuple, Sequence, Tuple

from arena_lab.course import league
from arena_lab.course.graded_matches import TEAM_OF, REPORT_NAME, GradingRun, size_of
from arena_lab.course.league import Failure
from arena_lab.course.pool import Budget, LimitedJob, TimedResult, in_time
from arena_lab.course.rounds import OF_ALL, in_a_line
from arena_lab.play import kept_matches
from arena_lab.play.schedulers import in_runs
from arena_lab.play.parallel import Result
from arena_lab.search.minimising import Cut, Runs, in_words, noting_scheduler, runs_of
from arena_lab.support.fields import FileFormatError
from arena_lab.support.progress import along
from arena_lab.sweep import report
from arena_lab.sweep.grid import Case
from arena_lab.sweep.report import Row

HANGS = "a program lets the lab wait, and what happens then depends on the machine"
DIFFERS = (
    "under the same schedule the match went another way when it was played again, so the programs do "
    "something else although they are told the same; look for clocks, random numbers without a seed, and sets"
)
NOT_SMALLER = {
    league.OTHERWISE: "the match was solved when it was played",
    league.HUNG: HANGS,
    league.UNPLAYED: "the match was not played",
}
TIME_IS_UP = "the time for this was up, so there may be a smaller one"


class NotSmallerError(Exception):
    """A schedule cannot be made smaller; says why."""


class Cutting(NamedTuple):
    """Minimises the schedules of failed matches. `faults` maps match numbers to
    faults."""

    grading: GradingRun
    faults: Dict[int, List[str]]

    def play(self, case: Case) -> TimedResult:
        """Minimises the schedule of a failed match."""
        began = time.monotonic()
        try:
            text = self._smallest(case, began)
            has_smallest = True
        except NotSmallerError as fault:
            text = f"not made smaller: {fault}"
            has_smallest = False
        except OF_ALL:
            raise
        except Exception as fault:
            text = f"not made smaller: {in_a_line(fault)}"
            has_smallest = False
        size = size_of(self.grading.match_folder(case) / league.SMALLEST)
        return TimedResult(
            self.failure(case, text, has_smallest), time.monotonic() - began, size
        )

    def failure(self, case: Case, text: str, has_smallest: bool = False) -> Failure:
        """Returns a failed match with the text about its smallest schedule."""
        path = self.grading.match_folder(case)
        try:
            choices = (path / kept_matches.SCHEDULE).read_text(encoding="utf-8").count(
                "\n"
            ) - 1
        except FileNotFoundError:
            choices = None
        errors = sorted(
            (path.name for path in path.glob(f"{kept_matches.ERRORS}*.txt")),
            key=lambda name: (len(name), name),
        )
        lines = kept_matches.lines_in(path / REPORT_NAME)
        return Failure(
            case.number,
            choices,
            has_smallest,
            text,
            (path / kept_matches.PAGE).exists(),
            errors,
            lines,
        )

    def digests(self) -> Dict[str, str]:
        return self.grading.digests()

    def _smallest(self, case: Case, began: float) -> str:
        """Writes the smallest failing schedule, and returns the text about it."""
        check_faults(self.faults[case.number])
        numbers: List[int] = []
        grading = self.grading
        path = self.grading.match_folder(case)
        course = grading.course
        by = noting_scheduler(course.conditions.scheduler(case), numbers)
        _, again = grading.match(case, by, None)
        if (
            again.replay != (path / kept_matches.REPLAY).read_bytes()
            or not again.has_failed()
        ):
            raise NotSmallerError(DIFFERS)

        def is_late() -> bool:
            return time.monotonic() - began > course.terms.limits.match

        cut = Cut(
            runs_of(numbers),
            lambda runs: self._fails(case, runs),
            course.tries,
            is_late,
        )
        schedule, match = grading.match(case, in_runs(cut.runs), grading.program)
        if not match.has_failed():
            raise NotSmallerError(DIFFERS)
        kept_matches.write_find(
            path / league.SMALLEST, schedule, match, grading.program
        )
        outcome = league.outcome_text(*map(str, match.verdict()))
        late = [TIME_IS_UP] if is_late() else []
        return "; ".join(
            [
                in_words(cut.runs),
                f"{len(match.choices)} choices",
                outcome,
                *match.faults,
                *late,
            ]
        )

    def _fails(self, case: Case, runs: Runs) -> bool:
        """Returns whether the team fails under this schedule too."""
        _, match = self.grading.match(case, in_runs(runs), None)
        check_faults(match.faults)
        return match.has_failed()


def check_faults(faults: Sequence[str]) -> None:
    """Refuses to make a schedule smaller where that shows nothing."""
    for kind, why in NOT_SMALLER.items():
        if any(league.is_of(kind, fault) for fault in faults):
            raise NotSmallerError(why)


def cut_down(
    grading: GradingRun,
    cases: List[Case],
    rows: List[Row],
    workers: int,
    budget: Budget,
) -> Dict[int, Failure]:
    """Returns the failure of each failed match by number. Of failures of the same kind
    on the same network one is minimised."""
    cutting = Cutting(
        grading, {case.number: rows[case.number][report.FAULTS] for case in cases}
    )
    first: Dict[Tuple[str, str, str], Case] = {}
    alike = {
        case.number: first.setdefault(
            (case.team.name, case.network, league.kind_of(rows[case.number])), case
        )
        for case in cases
    }
    failures = {
        case.number: cutting.failure(
            case,
            f"match {alike[case.number].number} failed in the same way on the same "
            "network: see there",
        )
        for case in cases
    }
    for result in along(
        cut_in_time(cutting, list(first.values()), workers, budget),
        len(first),
        "failed match",
    ):
        if result.fault:
            raise FileFormatError(result.fault)
        failures[result.result.number] = result.result
    return failures


def cut_in_time(
    cutting: Cutting, cases: List[Case], workers: int, budget: Budget
) -> Iterator[Result]:
    """Yields the failure of each failed match, within the time budgets."""

    def instead(case: Case) -> Failure:
        return cutting.failure(case, f"not made smaller: {budget.says(case.team.name)}")

    return in_time(cutting, cases, workers, LimitedJob(budget, TEAM_OF, instead))
