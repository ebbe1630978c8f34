"""Sweeps: the rows of a grid's matches, and what is written of them."""
import hashlib
import pathlib
import sys
from typing import (
    Any,
    Dict,
    Iterable,
    Iterator,
    List,
    NamedTuple,
    Optional,
    Sequence,
    Tuple,
)

from arena_lab.play.agent_files import digests
from arena_lab.play.kept_matches import played_under, write_find
from arena_lab.play.games import maker_of
from arena_lab.play.matches import PlayedMatch
from arena_lab.play.foreign_files import watch
from arena_lab.play.schedules import Schedule, schedule_of
from arena_lab.play.parallel import Parallelism, Result
from arena_lab.play.summaries import Summary, summary_of
from arena_lab.rules.engines import NAMES, EnginesDifferError, name_of
from arena_lab.rules.fixtures import Fixture
from arena_lab.support.fields import FileFormatError
from arena_lab.support.progress import along
from arena_lab.sweep import every, grid, report, row_checks
from arena_lab.sweep.grid import Case, Grid
from arena_lab.sweep.tables import (
    COLUMNS,
    RUNS,
    TableError,
    cells_in,
    changed_in,
    check_asked,
    with_check,
    done_in,
    line_of,
    made_by,
    note_read,
    rows_in,
)

SUMMARY = "summary.csv"
REPORT = "report.html"
WORST = "worst"
# a generous limit in seconds: on a busy machine agents wait for a processor, and rows
# must not depend on that
LIMIT = 60


class SweepRow(NamedTuple):
    """The row of a run, and the SHA-256 of each file that its agents have read, by
    their names."""

    row: List[str]
    read_hashes: Dict[str, str]


class SweepJob(NamedTuple):
    """The data that a worker needs to play runs: the sweep's text and the program (None
    for the Python model)."""

    text: str
    program: Optional[str]

    def play(self, case: Case) -> SweepRow:
        """Plays a run. What its agents read is noted."""
        watch()
        schedule, match = played_case(self, grid.grid_of(self.text), case)
        return SweepRow(row_for(case, schedule, match, self.program), match.read_hashes)

    def digests(self) -> Dict[str, str]:
        """The SHA-256 of each file that rows depend on."""
        return {
            **grid.grid_of(self.text).files(),
            **(digests([self.program]) if self.program else {}),
        }


def played_case(work: SweepJob, spec: Grid, case: Case) -> Tuple[Schedule, PlayedMatch]:
    """Plays a run."""
    fixture = spec.fixture(case)
    agents = [case.team.words] * fixture.setup.agents
    empty = schedule_of(
        fixture, agents, f"{case.scheduler} {case.seed} on {case.network}", [], LIMIT
    )
    return played_under(maker_of(case.scheduler)(case.seed), empty, work.program)


def row_for(
    case: Case, schedule: Schedule, match: PlayedMatch, program: Optional[str]
) -> List[str]:
    """Returns the row of a played run, judged by the program if there is one."""
    return cells_for(case, schedule.fixture, summary_of(match, program))


def cells_for(case: Case, fixture: Fixture, summary: Summary) -> List[str]:
    """Returns the row of a run with this summary."""
    row = {
        **case_columns(case, fixture),
        **summary.columns(),
        "replay": summary.replay,
        "check": "",
    }
    faults = [" ".join(fault.split()) for fault in summary.faults]
    return with_check([*(str(row[name]) for name in COLUMNS[:-1]), *(faults or [""])])


def case_columns(case: Case, fixture: Fixture) -> Dict[str, Any]:
    """The first columns of a row, which say which run it is."""
    setup = fixture.setup
    return {
        "run": case.number,
        "network": case.network,
        "nodes": setup.nodes,
        "links": len(setup.links),
        "home": setup.home,
        "hole": case.hole,
        "team": case.team.name,
        "agents": setup.agents,
        "scheduler": case.scheduler,
        "seed": case.seed,
    }


def check_rows(spec: Grid, cases: Sequence[Case], folder: pathlib.Path) -> None:
    """Refuses a folder whose rows are not those of the sweep's first runs."""
    path = folder / RUNS
    rows = cells_in(path)
    if len(rows) > len(cases):
        raise TableError(
            f"{path}: it has {len(rows)} rows, and the sweep has {len(cases)} runs: name another folder"
        )
    check_asked(
        path,
        rows,
        (
            list(map(str, case_columns(case, spec.fixture(case)).values()))
            for case in cases
        ),
        "run than the sweep has there: name another folder, or remove this line and all below it, and start "
        "the same command again",
    )


def made_of(spec: Grid, text: str, program: Optional[str]) -> Dict[str, Any]:
    """Returns the dependencies of a folder's rows."""
    return {
        **made_by(program),
        "files": spec.files(),
        "sweep": hashlib.sha256(text.encode()).hexdigest(),
    }


class SweepRequest(NamedTuple):
    """A request to run a sweep: folder, workers, and the limit of states for exploring
    every schedule (None to skip that)."""

    out: pathlib.Path
    parallelism: Parallelism
    states: Optional[int] = None


def swept(
    work: SweepJob,
    keeper: SweepJob,
    cases: List[Case],
    done_count: int,
    request: SweepRequest,
) -> int:
    """Plays the runs that are not done yet, and writes everything. The keeper plays
    what is kept once more."""
    spec = grid.grid_of(work.text)
    out = request.out
    is_explored = request.states is not None
    check_rows(spec, cases, out)
    rows = every.SweepRows(out, spec)
    try:
        write_rows(
            note_reads(request.parallelism.results(work, cases[done_count:]), out),
            len(cases) - done_count,
            out,
        )
        if request.states is not None and work.program is not None:
            every.try_all(
                every.SweepExploreJob(work.text, work.program, request.states, LIMIT),
                rows,
                request.parallelism,
            )
    except KeyboardInterrupt:
        suffix = (
            f", and {len(rows.rows())} of {len(rows.matches)} matches were tried"
            if is_explored
            else ""
        )
        print(
            f"interrupted; {done_in(out / RUNS)} of {len(cases)} runs are done{suffix}: the same command goes on there"
        )
        return 130
    status = write_summary(work, keeper, cases, rows, out)
    return (
        max(status, every.report_status(rows, str(work.program)))
        if rows.rows()
        else status
    )


def verify_rows(
    work: SweepJob,
    cases: List[Case],
    record: Dict[str, Any],
    request: SweepRequest,
    count: int,
) -> int:
    """Plays `count` rows of the folder again, whoever made them, and compares them."""
    out = request.out
    for name in changed_in(out, record):
        print(
            f"arena-lab: {name} is other than when the rows were made", file=sys.stderr
        )
    check_rows(grid.grid_of(work.text), cases, out)
    rows = cells_in(out / RUNS)
    numbers = row_checks.chosen(len(rows), count)
    again = request.parallelism.results(work, [cases[number] for number in numbers])
    differences = row_checks.differing_rows(
        numbers,
        rows,
        (
            result._replace(result=result.result and result.result.row)
            for result in again
        ),
    )
    other_paths = (
        other_texts(grid.grid_of(work.text), out) if len(rows) == len(cases) else []
    )
    for name in other_paths:
        print(f"{name} is not what is made of the rows", file=sys.stderr)
    print(f"by {name_of(work.program)}: ", end="")
    return row_checks.report_differences(numbers, len(rows), differences) or int(
        bool(other_paths)
    )


def note_reads(results: Iterable[Result], folder: pathlib.Path) -> Iterator[Result]:
    """The results, once the files that their agents have read are written down."""
    for result in results:
        if not result.fault:
            note_read(folder, result.result.read_hashes)
        yield result._replace(result=result.result and result.result.row)


def write_rows(results: Iterable[Result], total: int, folder: pathlib.Path) -> None:
    """Writes the rows of runs as they come."""
    with (folder / RUNS).open("a", encoding="utf-8", newline="") as file:
        for result in along(results, total, "run"):
            if result.fault:
                raise FileFormatError(result.fault)
            file.write(line_of(result.result))
            file.flush()


def write_summary(
    work: SweepJob,
    keeper: SweepJob,
    cases: List[Case],
    sweep_rows: every.SweepRows,
    folder: pathlib.Path,
) -> int:
    """Writes the summary, the worst runs and the report."""
    spec = grid.grid_of(work.text)
    rows = rows_in(folder / RUNS)
    matches = sweep_rows.rows()
    every.check_runs(matches, rows)
    groups = report.groups_of(rows, spec, matches)
    (folder / SUMMARY).write_text(summary_text(groups), encoding="utf-8")
    pages = [
        report.KeptRun(row, keep_run(keeper, spec, cases[int(row["run"])], row, folder))
        for row in along(
            report.worst_runs(rows), len(spec.names) * len(spec.teams), "page"
        )
    ]
    engine = name_of(work.program)
    (folder / REPORT).write_text(
        report.page(spec, groups, pages, engine, report.matches(rows, matches)),
        encoding="utf-8",
    )
    failed_count = sum(not report.is_solved(row) for row in rows)
    print(
        f"{len(rows)} runs on {engine}: solved {len(rows) - failed_count}; failed {failed_count}"
    )
    print(
        f"read {folder / REPORT}; the rows are in {folder / RUNS} and {folder / SUMMARY}"
    )
    return 1 if failed_count else 0


def keep_run(
    work: SweepJob, spec: Grid, case: Case, row: report.Row, folder: pathlib.Path
) -> str:
    """Writes a run with its schedule, its replay and its page; gives the page, or else
    the schedule, from the folder of the report."""
    schedule, match = played_case(work, spec, case)
    if hashlib.sha256(match.replay).hexdigest() != row["replay"]:
        raise EnginesDifferError(
            f"run {case.number} has another replay when it is played again: its agents or its scheduler do "
            "something else although they are given the same"
        )
    run_folder = folder / WORST / str(case.number)
    write_find(run_folder, schedule, match, work.program)
    return link_to(case.number, folder)


def link_to(run: int, folder: pathlib.Path) -> str:
    """Returns the path of a kept run's page or schedule, relative to the report."""
    run_folder = folder / WORST / str(run)
    names = [
        name for name in ("match0.html", "schedule.txt") if (run_folder / name).exists()
    ]
    return f"{WORST}/{run}/{names[0] if names else ''}"


def summary_text(groups: List[report.RunGroup]) -> str:
    return "".join(map(line_of, report.summary(groups)))


def other_texts(spec: Grid, folder: pathlib.Path) -> List[str]:
    """Returns which of summary and report differ from those computed from the rows. The
    report may name any engine."""
    rows = rows_in(folder / RUNS)
    matches = every.SweepRows(folder, spec).rows()
    groups = report.groups_of(rows, spec, matches)
    match_rows = report.matches(rows, matches)
    pages = [
        report.KeptRun(row, link_to(int(row["run"]), folder))
        for row in report.worst_runs(rows)
    ]
    may_be = {
        SUMMARY: [summary_text(groups)],
        REPORT: [report.page(spec, groups, pages, name, match_rows) for name in NAMES],
    }
    return [
        name for name, texts in may_be.items() if text_in(folder / name) not in texts
    ]


def text_in(path: pathlib.Path) -> str:
    """Returns the text of a file, or "" if it does not exist."""
    return path.read_text(encoding="utf-8", errors="replace") if path.is_file() else ""
