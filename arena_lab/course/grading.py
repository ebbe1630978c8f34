"""Grades the programs of a course: plays the matches, makes the schedules of failed
ones small, and writes the results."""
import concurrent.futures
import contextlib
import csv
import hashlib
import pathlib
import random
import sys
import tempfile
from typing import Dict, Iterator, List, Sequence, Set, Tuple

from arena_lab.course import league, rounds
from arena_lab.course.course_files import CourseFile
from arena_lab.course.cutting import cut_down
from arena_lab.course.export import Marks
from arena_lab.course.graded_matches import (
    TEAM_OF,
    GradingRun,
    taken_anew,
    unplayed_row,
    written_megabytes,
)
from arena_lab.course.league import Refusals, LeagueRow
from arena_lab.course.points import marks
from arena_lab.course.pool import Budget, LimitedJob, in_time
from arena_lab.pages import match_page
from arena_lab.play.parallel import Result
from arena_lab.rules.engines import name_of
from arena_lab.sandbox import sandboxes, isolation
from arena_lab.sandbox.sandboxes import Isolation
from arena_lab.submissions import store
from arena_lab.support.missing import MissingPackageError
from arena_lab.sweep import report, sweeping, tables
from arena_lab.sweep.grid import Case
from arena_lab.sweep.report import Row

# what came of repeating solved matches
REPEATS = "repeats.csv"
REPEATS_HEAD = ("run", "team", "fault")


def graded_in(grading: GradingRun, workers: int, digests: Dict[str, str]) -> int:
    """Plays the matches that are not done yet, and writes everything. `digests` are the
    SHA-256 of the teams' files."""
    record = {
        **tables.made_by(grading.program),
        "course": hashlib.sha256(grading.text.encode()).hexdigest(),
        "files": {**grading.course.digests(), **digests},
    }
    done_count = tables.prepare_table(grading.out, record)
    (grading.out / store.COURSE).write_text(grading.text, encoding="utf-8")
    cases = grading.course.cases()
    commands = [team.words.words for team in grading.course.grid.teams]
    try:
        with sandboxes.furnish(
            grading.sandbox, commands, grading.course.terms.packages
        ) as sandbox:
            grading = grading._replace(sandbox=sandbox)
            prepare(grading)
            budget = budget_of(grading, cases)
            remaining_cases = cases[done_count:]
            hangs = Hangs(cases, tables.rows_in(grading.out / tables.RUNS))
            sweeping.write_rows(
                played_in_time(grading, remaining_cases, workers, budget, hangs),
                len(remaining_cases),
                grading.out,
            )
            status = write_results(grading, cases, workers, budget)
        tell_changes(digests, hand_ins(grading.out, grading.course))
        return status
    except KeyboardInterrupt:
        count = tables.done_in(grading.out / tables.RUNS)
        print(
            f"interrupted; {count} of {len(cases)} matches are played: the same command goes on there"
        )
        return 130


def tell_changes(before: Dict[str, str], now: Dict[str, str]) -> None:
    """Says which teams have changed their files while the course was graded."""
    for name, digest in before.items():
        if now[name] != digest:
            team = name[len(store.TEAM) :]
            print(
                f"arena-lab: team {team} has changed its files since they were read; what was graded is "
                f"{store.HAND_INS}/{team}.tar",
                file=sys.stderr,
            )


def budget_of(grading: GradingRun, cases: Sequence[Case]) -> Budget:
    """The time and the space that teams have for their matches."""
    limits = grading.course.terms.limits
    names = {case.team.name for case in cases}
    return Budget(
        limits.team,
        dict.fromkeys(names, 0.0),
        limits.team_space,
        written_megabytes(grading.out, cases),
    )


def hand_ins(out: pathlib.Path, course: CourseFile) -> Dict[str, str]:
    """Reads what all teams hand in; gives the digest of each. What was read at the
    first run is kept."""
    is_first = not (out / tables.RECORD_FILE).exists()

    def digest(name: str) -> str:
        if is_first or not store.is_kept(out, name):
            return taken_anew(out, course, name).digest
        with tempfile.TemporaryDirectory() as again:
            return taken_anew(pathlib.Path(again), course, name).digest

    with concurrent.futures.ThreadPoolExecutor() as readers:
        return {
            store.TEAM + name: record
            for name, record in zip(course.files, readers.map(digest, course.files))
        }


def prepare(grading: GradingRun) -> None:
    """Computes cached values before the worker processes are forked, so that they
    inherit them."""
    if grading.sandbox.isolation is Isolation.ALL:
        isolation.words(
            grading.sandbox.tools, grading.sandbox.has_proc, grading.sandbox.root
        )
    for network in grading.course.grid.networks.values():
        with contextlib.suppress(MissingPackageError):
            match_page.layout({"nodes": network.nodes, "links": network.links})


class Hangs:
    """How often teams have hung on each network, each time by the same fault."""

    def __init__(self, cases: Sequence[Case], rows: Sequence[Row]) -> None:
        """Starts with the known rows of an interrupted run."""
        self._count: Dict[Tuple[str, str, str], int] = {}
        for case, row in zip(cases, rows):
            self._note(case, row)

    def note(self, case: Case, cells: Sequence[str]) -> None:
        """Notes what came of a match."""
        self._note(case, tables.row_of(cells))

    def are_many(self, case: Case) -> bool:
        """Returns whether the team has hung twice alike on the network of this
        match."""
        return any(
            count >= 2
            for (team, network, _), count in self._count.items()
            if (team, network) == (case.team.name, case.network)
        )

    def _note(self, case: Case, row: Row) -> None:
        if not report.is_solved(row) and league.kind_of(row) == league.HUNG:
            key = case.team.name, case.network, league.alike(row[report.FAULTS][0])
            self._count[key] = self._count.get(key, 0) + 1


def played_in_time(
    grading: GradingRun,
    cases: Sequence[Case],
    workers: int,
    budget: Budget,
    hangs: Hangs,
) -> Iterator[Result]:
    """The rows of matches. After the second equal hang of a team its other matches on
    that network are not waited for as long."""

    def job_of(case: Case) -> GradingRun:
        return grading._replace(is_hurried=hangs.are_many(case))

    def instead(case: Case) -> List[str]:
        return unplayed_row(
            grading.course, case, f"{league.UNPLAYED}: {budget.says(case.team.name)}"
        )

    return in_time(
        grading,
        cases,
        workers,
        LimitedJob(budget, TEAM_OF, instead, job_of, hangs.note),
    )


def write_results(
    grading: GradingRun, cases: List[Case], workers: int, budget: Budget
) -> int:
    """Makes the schedules of failed matches small, and writes the table and the
    pages."""
    rows = tables.rows_in(grading.out / tables.RUNS)
    repeat_all(grading, rows, workers)
    failures = cut_down(
        grading,
        [cases[int(row["run"])] for row in rows if not report.is_solved(row)],
        rows,
        workers,
        budget,
    )
    engine = name_of(grading.program)
    standings = league.standings_of(
        rows, [team.name for team in grading.course.grid.teams]
    )
    (grading.out / league.TABLE).write_text(
        "".join(map(tables.line_of, league.table(standings))), encoding="utf-8"
    )
    refusals = {case.number: grading.refusals(case) for case in cases}
    for name, text in league.pages(
        grading.course.grid, rows, failures, engine, refusals
    ).items():
        (grading.out / name).write_text(text, encoding="utf-8")
    export(grading, rows, standings, refusals)
    print(league.text_of(standings), end="")
    print(
        f"{len(rows)} matches on {engine}; solved {len(rows) - len(failures)}; failed {len(failures)}"
    )
    print(
        f"read {grading.out / league.PAGE}; the rows are in {grading.out / tables.RUNS}"
    )
    broken = [
        row["run"]
        for row in rows
        if any(fault.startswith(league.LAB_FAILED) for fault in row[report.FAULTS])
    ]
    if broken:
        print(
            f"arena-lab: the lab could not play {len(broken)} matches, such as {broken[0]}: the teams' pages say why",
            file=sys.stderr,
        )
    return 1 if broken else 0


def export(
    grading: GradingRun,
    rows: List[Row],
    standings: Sequence[LeagueRow],
    refusals: Refusals,
) -> None:
    """Writes the points of all teams for gradebooks, as far as that is asked for."""
    course = grading.course
    if course.points is None:
        return
    teams = {
        standing.team: marks(
            course.points, [row for row in rows if row["team"] == standing.team]
        )
        for standing in standings
    }
    for name, text in grading.export.files(
        Marks(course.grid.title, course.points, teams, refusals)
    ).items():
        (grading.out / name).write_text(text, encoding="utf-8")
        print(f"for a gradebook: {grading.out / name}")


def repeat_all(grading: GradingRun, rows: List[Row], workers: int) -> None:
    """Repeats the solved matches, writes what came of that, and notes a fault in the
    row of each that does not repeat. The file of rows keeps how they were played."""
    path = grading.out / REPEATS
    path.unlink(missing_ok=True)
    if not grading.repeats:
        return
    matches = rounds.solved_in(rows)
    differences = rounds.repeat_agents(
        grading.repeating(),
        matches,
        workers,
        random.Random(f"rounds of {grading.secret}"),
    )
    lines = [
        REPEATS_HEAD,
        *(
            (str(match.number), match.team, differences.get(match.number, ""))
            for match in matches
        ),
    ]
    path.write_text("".join(map(tables.line_of, lines)), encoding="utf-8")
    for number, difference in differences.items():
        rows[number] = {
            **rows[number],
            "fault": difference,
            report.FAULTS: [difference],
        }


def not_counted_in(out: pathlib.Path) -> Set[int]:
    """The numbers of the solved matches in a folder of results that did not repeat."""
    path = out / REPEATS
    if not path.exists():
        return set()
    with path.open(encoding="utf-8", newline="") as file:
        return {int(row["run"]) for row in csv.DictReader(file) if row["fault"]}
