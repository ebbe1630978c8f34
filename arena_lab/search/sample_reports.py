"""`explore --draws` by the program: it draws schedules of matches that have too many to
try, and the lab answers what agents do (arena_lab/search/program_search.py). The worst
schedule is kept, and the agents play it."""
import bisect
import itertools
import statistics
from typing import List, NamedTuple, Sequence, Tuple

from arena_lab.search.explore_reports import (
    ExploreRequest,
    explore_all,
    failure_of,
    in_turn,
    keep,
    report_failure,
)
from arena_lab.rules.engines import EnginesDifferError
from arena_lab.search.driver import Search
from arena_lab.search.findings import Breaks, Exceeds, Pairs, SampleCounts, verdict_of
from arena_lab.search.history_tree import NoFunctionError
from arena_lab.search.match_results import MatchResult, finding_with_schedule
from arena_lab.search.program_search import SampleRequest


class MoveStatistics(NamedTuple):
    """The least, mean, median and most of the moves of drawn schedules."""

    least: int
    mean: float
    median: float
    most: int


def moves_of(pairs: Pairs) -> MoveStatistics:
    """Sums up pairs of a number of moves and how many schedules made it, in order of
    the moves."""
    numbers, times = zip(*pairs)
    ends = list(itertools.accumulate(times))
    middle = [
        numbers[bisect.bisect(ends, index)]
        for index in ((ends[-1] - 1) // 2, ends[-1] // 2)
    ]
    return MoveStatistics(
        numbers[0],
        statistics.fmean(numbers, times),
        statistics.fmean(middle),
        numbers[-1],
    )


def draw_and_report(requests: Sequence[ExploreRequest], draws: SampleRequest) -> int:
    """Draws schedules of all matches of some games, up to the first game in which one
    fails."""

    def draw_schedules(request: ExploreRequest) -> Tuple[int, Search]:
        search = explore_all(
            request, Search(request.job(draws), request.elsewhere()), line_of
        )
        return report_samples(request, draws, search), search

    return in_turn(requests, draw_schedules)


def line_of(result: MatchResult) -> str:
    """Returns the line that sums up the drawn schedules of one match."""
    setup = result.fixture.setup
    answer = result.answer
    finding = result.answer.finding
    text = answer.why
    seconds = answer.seconds
    if isinstance(finding, Exceeds):
        text = f"under a schedule agent {finding.agent} uses {finding.commands} commands, and its quota is less"
    elif answer.samples:
        samples = answer.samples
        moves = moves_of(answer.samples.moves)
        speed = answer.samples.turns / max(seconds, 1e-9)
        text = (
            f"{samples.solved} solved, {samples.failed} failed, moves least {moves.least} mean {moves.mean:.1f} "
            f"median {moves.median:g} most {moves.most}, {samples.turns} steps, {speed:.0f} a second"
        )
    if isinstance(finding, Breaks):
        text += f", under a schedule {failure_of(finding, answer)}"
    return f"home {setup.home} holes {setup.holes}: {text}, {seconds:.1f} s"


def report_samples(
    request: ExploreRequest, draws: SampleRequest, search: Search
) -> int:
    """Says what the drawn schedules of all matches come to, and keeps the worst."""
    tries = search.tries
    last = search.tries[-1]
    solves, failures, turns = map(
        sum,
        zip(
            *((result.answer.samples or SampleCounts(0, 0, 0))[:3] for result in tries)
        ),
    )
    counts = (
        f"{solves + failures} drawn schedules, {turns} steps in {search.seconds:.1f} s"
    )
    if last.answer.finding is None:
        print(f"{counts}: stopped before all were drawn; no schedule failed until then")
        return 130
    if isinstance(last.answer.finding, Exceeds):
        raise NoFunctionError(
            "an agent uses more commands than its quota under a drawn schedule, of which the program says "
            "nothing: give a larger --quota"
        )
    if last.has_failed():
        print(f"{counts}: a schedule fails")
        return report_failure(request, last)
    if failures:
        raise EnginesDifferError(
            f"the program counts {failures} drawn schedules that fail, and tells one that solves its network"
        )
    print(
        f"{counts}: none of them fails, which says nothing of the others; {search.checks}"
    )
    report_worst(request, draws, tries)
    return 0


def report_worst(
    request: ExploreRequest, draws: SampleRequest, tries: List[MatchResult]
) -> None:
    """Writes the schedule with the most moves, or with the most agents lost, once the
    agents have played it."""
    is_lost = draws.hunt == "lost"
    worst = max(
        tries, key=lambda result: result.bounds()[::-1] if is_lost else result.bounds()
    )
    setup = worst.fixture.setup
    what = "agents lost" if is_lost else "moves"
    print(
        f"most {what}: home {setup.home} holes {setup.holes}, {verdict_of(finding_with_schedule(worst))}"
    )
    keep(request, worst)
