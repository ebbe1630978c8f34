"""Results of searches as Python programs and notebooks take them, and explorations of
several games, which give them."""
import importlib
from typing import Any, Dict, List, NamedTuple, Optional, Sequence, Union

from arena_lab.play.games import Record, play_again
from arena_lab.play.schedules import Schedule
from arena_lab.play.teams import Game
from arena_lab.rules.model import Verdict
from arena_lab.search import model_search
from arena_lab.search.capacity import OF_MODEL, OF_PROGRAM, fitting
from arena_lab.search.machine_checks import CheckCounts
from arena_lab.search.driver import CHECKED_SAMPLES, ExploreJob, Search
from arena_lab.search.findings import Exceeds, Solves, name_of as kind_of, turns_of
from arena_lab.search.history_tree import NoFunctionError
from arena_lab.search.match_results import (
    MatchResult,
    finding_with_schedule,
    program_schedule,
    unkept,
)
from arena_lab.search.program_search import SampleRequest
from arena_lab.support.progress import bar


def record_text(record: Record) -> str:
    """Returns the verdict of a match and its faults."""
    return "; ".join([str(record.verdict), *record.match.faults])


class Exploration(NamedTuple):
    """The result of the Python model's search over some matches: number of states,
    whether all were visited, and the first failing match, else the match with the most
    moves (None if no match ended)."""

    states: int
    is_whole: bool
    fails: bool
    seconds: float
    worst: Optional[Record]

    @property
    def solves(self) -> bool:
        """Returns whether no schedule fails."""
        return self.is_whole and not self.fails

    @property
    def most_moves(self) -> Optional[int]:
        return self.worst.verdict.moves if self.worst else None

    def __str__(self) -> str:
        text = (
            "a schedule fails"
            if self.fails
            else "no schedule fails, of the Python model"
            if self.is_whole
            else ("stopped before all were visited; no schedule failed until then")
        )
        worst = f"; {record_text(self.worst)}" if self.worst else ""
        return f"{self.states} states in {self.seconds:.1f} s: {text}{worst}"

    def _repr_html_(self) -> str:
        return f"<p>{self}</p>{self.worst._repr_html_() if self.worst else ''}"


class SearchResult(NamedTuple):
    """The result of the program's search over some matches, or over drawn schedules: a
    row per match, the checks that agents are state machines, and the failing match, if
    any. The finding of an incomplete match is None."""

    rows: List[Dict[str, Any]]
    checked: str
    worst: Optional[Record]
    is_drawn: bool

    @property
    def fails(self) -> bool:
        return self.worst is not None

    @property
    def is_whole(self) -> bool:
        return all(row["found"] not in (None, kind_of(Exceeds)) for row in self.rows)

    @property
    def solves(self) -> bool:
        """Returns whether every schedule of these matches was tried, and none fails."""
        return all(row["found"] == kind_of(Solves) for row in self.rows)

    @property
    def states(self) -> int:
        return sum(row["states"] or 0 for row in self.rows)

    @property
    def seconds(self) -> float:
        return float(sum(row["seconds"] for row in self.rows))

    @property
    def most_moves(self) -> Optional[int]:
        return max(
            (row["moves"] for row in self.rows if row["moves"] is not None),
            default=None,
        )

    @property
    def most_lost(self) -> Optional[int]:
        return max(
            (row["lost"] for row in self.rows if row["lost"] is not None), default=None
        )

    def frame(self) -> Any:
        """The rows as a frame of pandas, or as a list of dicts if pandas is missing."""
        return (
            pandas_or_none().DataFrame(self.rows)
            if pandas_or_none()
            else list(self.rows)
        )

    def __str__(self) -> str:
        if self.fails:
            text = f"a schedule fails; {record_text(self.worst)}" if self.worst else ""
        elif not self.is_whole:
            text = "stopped before all were visited; no schedule failed until then"
        else:
            what = (
                "no drawn schedule fails, which says nothing of the others"
                if self.is_drawn
                else "every schedule that the lab tried solves"
            )
            text = f"{what}; most moves {self.most_moves}, most agents lost {self.most_lost}; {self.checked}"
        return f"{self.states} states in {self.seconds:.1f} s: {text}"

    def _repr_html_(self) -> str:
        return f"<p>{self}</p>{self.worst._repr_html_() if self.worst else ''}"


def pandas_or_none() -> Any:
    """Returns the module pandas, or None if it is not installed."""
    try:
        return importlib.import_module("pandas")
    except ModuleNotFoundError:
        return None


class HuntResult(NamedTuple):
    """The result of a hunt: number of schedules tried, whether the team fails, and the
    best match."""

    tried: int
    fails: bool
    best: Record

    @property
    def verdict(self) -> Verdict:
        return self.best.verdict

    def __str__(self) -> str:
        text = (
            "the team fails" if self.fails else "the team solved its network under each"
        )
        return f"{self.tried} schedules were tried: {text}; {record_text(self.best)}"

    def _repr_html_(self) -> str:
        return f"<p>{self}</p>{self.best._repr_html_()}"


def explore_games(
    games: Sequence[Game],
    states: Optional[int] = None,
    program: Optional[str] = None,
    draws: Optional[SampleRequest] = None,
    check: int = CHECKED_SAMPLES,
) -> Union[Exploration, SearchResult]:
    """Tries every schedule of games, or draws schedules, by a program or by the Python
    model. `states` are the most of a match to visit."""
    if program is not None:
        limit = model_search.MAX_STATES if draws is not None else fitting(OF_PROGRAM)
        return by_program(
            games,
            ExploreJob(games[0].matches(), program, states or limit, check, draws),
        )
    if draws is not None:
        raise ValueError("draws need a program: name it by engine, or hunt")
    with bar(None, "state") as progress:
        explored = [
            (match, game)
            for game in games
            for match in model_search.explore_matches(
                game, states or fitting(OF_MODEL), progress
            )
        ]
    worst, worst_game = max(explored, key=lambda pair: pair[0].rank())
    has_ended = worst.explorer.worst is not None
    return Exploration(
        sum(match.explorer.states() for match, _ in explored),
        all(match.is_whole for match, _ in explored),
        worst.rank()[0],
        sum(match.seconds for match, _ in explored),
        play_again(worst.schedule(worst_game), None) if has_ended else None,
    )


def by_program(games: Sequence[Game], job: ExploreJob) -> SearchResult:
    """Lets the program explore games up to the first match that fails or is not
    explored completely. The job has the limits for each match."""
    rows = []
    counts = CheckCounts()
    worst = None
    for game in games:
        search = Search(job._replace(matches=game.matches()))
        with bar(None, "answer") as progress:
            rows += [row_of(game, result) for result in search.results(progress)]
        counts = counts.plus(search.checks)
        last = search.tries[-1]
        if last.has_failed():
            worst = play_again(failing(game, last), job.program)
        if last.has_failed() or not last.is_whole():
            break
    return SearchResult(rows, str(counts), worst, job.draws is not None)


def failing(game: Game, result: MatchResult) -> Schedule:
    """The schedule that fails, as the agents play it."""
    try:
        return program_schedule(game, result)
    except NoFunctionError:
        if not result.answer.modules:
            raise
        raise NoFunctionError(
            f"a schedule fails; {unkept(turns_of(finding_with_schedule(result)))}"
        ) from None


def row_of(game: Game, result: MatchResult) -> Dict[str, Any]:
    """Returns the row of an explored match: finding, number of states, most moves and
    most lost agents. A column is None if the program printed no value for it."""
    setup = result.fixture.setup
    answer = result.answer
    finding = result.answer.finding
    samples = result.answer.samples
    return {
        "network": game.name,
        "nodes": setup.nodes,
        "home": setup.home,
        "holes": setup.holes,
        "found": finding and kind_of(type(finding)),
        "states": answer.states,
        **{name: getattr(finding, name, None) for name in ("moves", "lost", "turns")},
        "drawn": samples and samples.solved + samples.failed,
        "seconds": answer.seconds,
        "why": answer.why,
    }
