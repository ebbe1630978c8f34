"""Plays the matches of a course that is graded, and writes what came of each."""
import operator
import pathlib
import time
from typing import Dict, List, NamedTuple, Optional, Sequence, Tuple

from arena_lab.course import course_files, league, rounds
from arena_lab.course.conditions import Conditions
from arena_lab.course.course_files import CourseFile
from arena_lab.course.export import Export
from arena_lab.course.pool import TimedResult
from arena_lab.course.rounds import OF_ALL, Repeating, in_a_line
from arena_lab.play import kept_matches, programs, referee
from arena_lab.play.agent_files import digests
from arena_lab.play.matches import PlayedMatch, play
from arena_lab.play.schedulers import Scheduler
from arena_lab.play.schedules import Schedule, schedule_of
from arena_lab.play.summaries import Summary
from arena_lab.rules.model import SOLVED, Verdict
from arena_lab.sandbox import sandboxes
from arena_lab.sandbox.sandboxes import SandboxOptions
from arena_lab.submissions import store
from arena_lab.submissions.store import SubmissionRecord
from arena_lab.submissions.submission import Submission
from arena_lab.submissions.team_runners import team_runners
from arena_lab.sweep import sweeping, tables
from arena_lab.sweep.grid import Case

# a program that hangs again is waited for this many times less
HURRY_FACTOR = 4
# of a failed match what came of it, a fact a line
REPORT_NAME = "told.txt"
TEAM_OF = operator.attrgetter("team.name")


class GradingRun(NamedTuple):
    """Plays the matches of a course: text of the file, folder, secret, program (None
    for the Python model), sandbox options, and folder of results. Workers receive a
    copy."""

    text: str
    folder: pathlib.Path
    secret: str
    program: Optional[str]
    sandbox: SandboxOptions
    out: pathlib.Path
    # whether a solved match counts only if its agents say the same when they are
    # repeated alone
    repeats: bool = True
    # whether the machine is to forget what it keeps of files before agents are repeated
    forgets: bool = False
    export: Export = Export()
    # true if programs of this team have hung on the same network: the time limit is
    # then shorter
    is_hurried: bool = False

    @property
    def course(self) -> CourseFile:
        return course_files.course_of(self.text, self.folder, self.secret)

    @property
    def conditions(self) -> Conditions:
        return self.course.conditions

    def play(self, case: Case) -> TimedResult:
        """The row of a match. One that the team fails is written to a folder of its
        own."""
        began = time.monotonic()
        try:
            row = self._row(case)
        except OF_ALL:
            raise
        except Exception as fault:
            # whatever a team has brought about, other teams are graded
            row = unplayed_row(
                self.course, case, f"{league.LAB_FAILED}: {in_a_line(fault)}"
            )
        return TimedResult(
            row,
            time.monotonic() - began,
            size_of(self.match_folder(case)) + size_of(self.replay_of(case)),
        )

    def _row(self, case: Case) -> List[str]:
        schedule, match = self.match(
            case,
            self.conditions.scheduler(case),
            self.program,
        )
        row = sweeping.row_for(case, schedule, match, self.program)
        path = self.match_folder(case)
        sandboxes.remove(path)
        if match.has_failed() or tables.row_of(row)["outcome"] != SOLVED:
            kept_matches.write_find(path, schedule, match, self.program)
            (path / REPORT_NAME).write_text(
                "\n".join(referee.report(match.match, match.faults)), encoding="utf-8"
            )
        else:
            self.replay_of(case).parent.mkdir(exist_ok=True)
            self.replay_of(case).write_bytes(match.replay)
            kept_matches.write_refused(
                rounds.refused_of(self.out, case.team.name, case.number), match
            )
        return row

    def refusals(self, case: Case) -> List[str]:
        """Returns the messages about rejected lines of a match."""
        path = rounds.refused_of(self.out, case.team.name, case.number)
        return kept_matches.lines_in(
            self.match_folder(case) / kept_matches.REFUSED_FILE
        ) or kept_matches.lines_in(path)

    def repeating(self) -> Repeating:
        """Returns the job that repeats agents of solved matches."""
        return Repeating(
            self.out,
            self.text,
            self.conditions.draws,
            self.sandbox,
            self.course.terms.limits,
            self.forgets,
        )

    def digests(self) -> Dict[str, str]:
        """The SHA-256 of each file that rows depend on."""
        return {
            **self.course.digests(),
            **(digests([self.program]) if self.program else {}),
        }

    def match_folder(self, case: Case) -> pathlib.Path:
        """Returns the folder of a failed match."""
        return self.out / league.folder_of(case.team.name, case.number)

    def replay_of(self, case: Case) -> pathlib.Path:
        """Returns the path of a solved match's replay."""
        return rounds.replay_of(self.out, case.team.name, case.number)

    def submission(self, team: str) -> Submission:
        """Returns the hand-in of a team, which is read once."""
        self._take(team)
        return store.stored_submission(self.out, team)

    def _take(self, team: str) -> SubmissionRecord:
        """Reads a team's hand-in, or its stored record."""
        return (
            store.record_of(self.out, team)
            if store.is_kept(self.out, team)
            else taken_anew(self.out, self.course, team)
        )

    def match(
        self, case: Case, scheduler: Scheduler, program: Optional[str]
    ) -> Tuple[Schedule, PlayedMatch]:
        """Plays a match by this scheduler."""
        fixture = self.conditions.fixture(case)
        limits = self.course.terms.limits
        agents = [case.team.words] * fixture.setup.agents
        empty = schedule_of(
            fixture,
            agents,
            f"{case.scheduler} {self.conditions.seed(case)} on {case.network}",
            [],
            limits.line,
        )._replace(files=self._take(case.team.name).files)
        words = case.team.words.words
        submission = self.submission(case.team.name)
        with team_runners(
            self.sandbox, submission, words, fixture.setup, len(agents)
        ) as runners:
            line = (
                max(1, limits.line // HURRY_FACTOR) if self.is_hurried else limits.line
            )
            team = programs.Team(
                fixture,
                {number: agent.words for number, agent in enumerate(agents)},
                line,
                dict(enumerate(runners)),
                limits.match,
                room=limits.match_space << 20,
            )
            match = play(
                kept_matches.engine_of(empty, program), team, scheduler, fixture
            )
        return empty._replace(choices=match.choices), match


def size_of(path: pathlib.Path) -> int:
    """Returns the bytes of a file, or of all files below a folder."""
    return sum(
        file.stat().st_size
        for file in ([path] if path.is_file() else path.rglob("*"))
        if file.is_file()
    )


def written_megabytes(out: pathlib.Path, cases: Sequence[Case]) -> Dict[str, float]:
    """Returns how many MB were written of the matches of each team before."""
    megabytes: Dict[str, float] = {}
    for case in cases:
        places = [
            out / league.folder_of(case.team.name, case.number),
            rounds.replay_of(out, case.team.name, case.number),
        ]
        megabytes[case.team.name] = megabytes.get(case.team.name, 0.0) + sum(
            map(size_of, places)
        ) / (1 << 20)
    return megabytes


def unplayed_row(course: CourseFile, case: Case, fault: str) -> List[str]:
    """Returns the result row of a match that was skipped."""
    return sweeping.cells_for(
        case,
        course.conditions.fixture(case),
        Summary(Verdict(league.UNPLAYED, 0, 0), faults=[fault]),
    )


def taken_anew(out: pathlib.Path, course: CourseFile, team: str) -> SubmissionRecord:
    """Reads what a team hands in now, and keeps it in a folder."""
    words = next(
        team_row.words.words for team_row in course.grid.teams if team_row.name == team
    )
    return store.store_submission(
        out, team, course.files[team], course.conditions.folder, words
    )
