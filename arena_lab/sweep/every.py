"""The matches of a sweep under every schedule: the program tries the schedules (`arena
explore`) of each network, team and choice of black holes, and each such match has a
row."""
import contextlib
import pathlib
from typing import Dict, List, NamedTuple, Sequence, Tuple

from arena_lab.play.agent_files import digests
from arena_lab.play.parallel import Parallelism
from arena_lab.play.teams import SPURIOUS_WAKEUPS, Matches
from arena_lab.rules.engines import EnginesDifferError, name_of
from arena_lab.rules.fixtures import Fixture
from arena_lab.search import driver
from arena_lab.search.machine_checks import ODD
from arena_lab.search.findings import FAILED, ExploreAnswer, Solves, name_of as kind_of
from arena_lab.support.fields import FileFormatError
from arena_lab.support.progress import along
from arena_lab.sweep import grid
from arena_lab.sweep.grid import Case, Grid
from arena_lab.sweep.report import Row, is_solved
from arena_lab.sweep.tables import cells_in, check_asked, with_check, line_of

EVERY = "every.csv"
# columns of a match: its identity, finding, and number of states; if every schedule
# solves it, the maxima of moves, lost agents and turns, and the number of sleeping
# memories without a further wake-up
COLUMNS = (
    "match",
    "network",
    "nodes",
    "links",
    "home",
    "hole",
    "team",
    "agents",
    "naps",
    "found",
    "states",
    "moves",
    "lost",
    "turns",
    "asleep",
    "check",
)
# finding of a match whose exploration reached the limit of states
LIMIT = "limit"
SOLVES = kind_of(Solves)
HAS_FAILED = list(map(kind_of, FAILED))


class SweepMatch(NamedTuple):
    """A match of a sweep: number, the runs of its team on its network (one per match),
    and the index of its own run."""

    number: int
    cases: Tuple[Case, ...]
    position: int

    @property
    def case(self) -> Case:
        return self.cases[self.position]


class SweepExploreJob(NamedTuple):
    """The data that a worker needs to explore matches of a sweep: text, program, limit
    of states, and seconds that an agent may compute."""

    text: str
    program: str
    states: int
    limit: float

    def play(self, match: SweepMatch) -> List[str]:
        """Tries a match, and gives its row."""
        spec = grid.grid_of(self.text)
        # a team is asked once on each network what its agents do, by the same keys
        keys = spec.fixture(match.cases[0]).keys
        fixtures = [
            spec.fixture(case)._replace(keys=keys, naps=SPURIOUS_WAKEUPS)
            for case in match.cases
        ]
        team = Matches(
            [match.case.team.words] * fixtures[0].setup.agents, fixtures, self.limit
        )
        result = driver.here(
            driver.ExploreJob(team, self.program, self.states, driver.CHECKED_SAMPLES)
        ).explore_match(match.position)
        return row_of(
            match, fixtures[match.position], result.match_result.answer, self.states
        )

    def digests(self) -> Dict[str, str]:
        """The SHA-256 of each file that rows depend on."""
        return {**grid.grid_of(self.text).files(), **digests([self.program])}


def matches_of(spec: Grid) -> List[SweepMatch]:
    """Lists the matches of a sweep, grouped by team and network."""
    holes_by_team: Dict[Tuple[str, str], Dict[Tuple[int, ...], Case]] = {}
    for case in spec.cases():
        holes_by_team.setdefault((case.network, case.team.name), {}).setdefault(
            case.holes, case
        )
    places = [
        (tuple(cases.values()), index)
        for cases in holes_by_team.values()
        for index in range(len(cases))
    ]
    return [SweepMatch(number, *match) for number, match in enumerate(places)]


def match_cells(match: SweepMatch, fixture: Fixture) -> List[str]:
    """The cells that say which match a row is of."""
    setup = fixture.setup
    case = match.case
    return list(
        map(
            str,
            (
                match.number,
                case.network,
                setup.nodes,
                len(setup.links),
                setup.home,
                case.hole,
                case.team.name,
                setup.agents,
                SPURIOUS_WAKEUPS,
            ),
        )
    )


def row_of(
    match: SweepMatch, fixture: Fixture, answer: ExploreAnswer, states: int
) -> List[str]:
    """The row of a match that was tried, with up to this many states."""
    finding = answer.finding
    kind, visit_count = (
        (kind_of(type(finding)), answer.states) if finding else (LIMIT, states)
    )
    bounds = (
        (finding.moves, finding.lost, finding.turns, answer.unwoken)
        if isinstance(finding, Solves)
        else [""] * 4
    )
    return with_check(
        [*match_cells(match, fixture), kind, *map(str, (visit_count, *bounds))], COLUMNS
    )


class SweepRows:
    """The rows of a folder, one for each match that was tried so far."""

    def __init__(self, folder: pathlib.Path, spec: Grid) -> None:
        self.path = folder / EVERY
        self.matches = matches_of(spec)
        self._rows = cells_in(self.path, COLUMNS) if self.path.exists() else []
        check_asked(
            self.path,
            self._rows,
            (match_cells(match, spec.fixture(match.case)) for match in self.matches),
            "match than the sweep has there: name another folder",
        )

    def rows(self) -> List[Row]:
        """Returns the rows so far."""
        return [dict(zip(COLUMNS, row)) for row in self._rows]

    def unfinished(self, states: int) -> List[SweepMatch]:
        """Returns the matches without a row, and those that stopped at fewer states
        than `states`."""

        def is_left(row: Row) -> bool:
            return bool(row["found"] == LIMIT and int(row["states"]) < states)

        again = [match for match, row in zip(self.matches, self.rows()) if is_left(row)]
        return again + self.matches[len(self._rows) :]

    def write_row(self, number: int, row: List[str]) -> None:
        """Writes the row of a match: appends it or replaces an existing row. The file
        is replaced atomically."""
        self._rows[number : number + 1] = [row]
        part = self.path.with_name(f".{EVERY}")
        part.write_text("".join(map(line_of, [COLUMNS, *self._rows])), encoding="utf-8")
        part.replace(self.path)


def try_all(work: SweepExploreJob, rows: SweepRows, parallelism: Parallelism) -> None:
    """Tries the matches that are left, and writes their rows as they come."""
    matches = rows.unfinished(work.states)
    with contextlib.closing(
        parallelism.results(work, matches, is_long=True)
    ) as results:
        # the results first, so that they come to their end and all processes have ended
        for result, match in zip(along(results, len(matches), "match"), matches):
            if result.fault:
                case = match.case
                why = result.fault.removeprefix(f"run {match.number}: ")
                raise FileFormatError(
                    f"{case.team.name} on {case.network} with black hole {case.hole}: {why}; the report is "
                    "written without --explore"
                )
            rows.write_row(match.number, result.result)


def check_runs(every: Sequence[Row], runs: Sequence[Row]) -> None:
    """Refuses runs that do what no schedule does."""
    bounds = {
        (row["network"], row["team"], row["hole"]): row
        for row in every
        if row["found"] == SOLVES
    }
    for run in runs:
        row = bounds.get((run["network"], run["team"], run["hole"]))
        if row and not (
            is_solved(run)
            and all(
                int(run[column]) <= int(row[column]) for column in ("moves", "lost")
            )
        ):
            raise EnginesDifferError(
                f"run {run['run']}: {run['outcome']} with {run['moves']} moves and {run['lost']} lost, and "
                f"by the program every schedule solves its match with at most {row['moves']} and "
                f"{row['lost']}: {ODD}"
            )


def report_status(rows: SweepRows, program: str) -> int:
    """Reports the findings, and returns the exit status."""
    kinds = [row["found"] for row in rows.rows()]
    solved_count = kinds.count(SOLVES)
    failed_count = sum(kind in HAS_FAILED for kind in kinds)
    print(
        f"every schedule of {len(kinds)} matches on {name_of(program)}: "
        f"solved {solved_count}; failed {failed_count}; not tried "
        f"as a whole {len(kinds) - solved_count - failed_count}; the rows are in {rows.path}"
    )
    return 1 if failed_count else 0
