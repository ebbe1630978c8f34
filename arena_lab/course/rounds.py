"""Repeats agents of a graded course's solved matches alone, in rounds, from what is
kept beside the results.

While an agent is repeated no other agent of its match may run, which could signal to
it. So there are rounds: in each of them one agent of each match is repeated, in an
order that no program can know. Before each round the numbers of pipes and sockets go on
by chance. Once an agent of a match differs, the others are not repeated.
"""
import operator
import pathlib
import random
import time
from typing import Dict, Iterator, List, NamedTuple, Sequence, Tuple

from arena_lab.course import league
from arena_lab.course.conditions import CourseDraws
from arena_lab.course.course_files import ProgramLimits, terms_of
from arena_lab.course.pool import Budget, LimitedJob, TimedResult, in_time
from arena_lab.play import mistakes, programs, repetitions
from arena_lab.play.agent_files import AgentError
from arena_lab.play.parallel import Result
from arena_lab.play.schedulers import ImpossibleError
from arena_lab.rules.fixtures import Fixture
from arena_lab.rules.model import begin_match, objects_of
from arena_lab.sandbox import kernel_traces
from arena_lab.sandbox.isolation import CellError
from arena_lab.sandbox.sandboxes import SandboxOptions
from arena_lab.sandbox.users import UserError
from arena_lab.submissions import store
from arena_lab.submissions.team_runners import team_runners
from arena_lab.support.built import ProgramError
from arena_lab.support.fields import FileFormatError
from arena_lab.support.missing import MissingPackageError
from arena_lab.support.progress import along
from arena_lab.sweep import report
from arena_lab.sweep.report import Row
from arena_lab.sweep.tables import TableError

# the replays of solved matches
SOLVED_FOLDER = "solved"
# faults of the machine or of the course's file, which end the command: all others are
# of a match alone
OF_ALL = (
    ImpossibleError,
    MissingPackageError,
    AgentError,
    CellError,
    ProgramError,
    TableError,
    UserError,
    OSError,
)


class SolvedMatch(NamedTuple):
    """A match that was solved: its number, its team, and how many agents it has."""

    number: int
    team: str
    agents: int


class Repetition(NamedTuple):
    """An agent of a solved match that is to be repeated alone."""

    number: int
    team: str
    agent: int


class Repeating(NamedTuple):
    """Repeats agents alone, by what is kept in a folder of results. Workers are sent
    it."""

    out: pathlib.Path
    text: str
    draws: CourseDraws
    sandbox: SandboxOptions
    limits: ProgramLimits
    # whether the machine is to forget what it keeps of files before each round
    forgets: bool = False

    def play(self, repetition: Repetition) -> TimedResult:
        """The match's number, and what the agent says otherwise, or nothing."""
        began = time.monotonic()
        try:
            difference = self._repeat(repetition)
        except OF_ALL:
            raise
        except Exception as fault:
            difference = f"{league.LAB_FAILED} when it was to repeat agent {repetition.agent}: {in_a_line(fault)}"
        return TimedResult((repetition.number, difference), time.monotonic() - began)

    def digests(self) -> Dict[str, str]:
        return {}

    def _repeat(self, repetition: Repetition) -> str:
        replay = replay_of(self.out, repetition.team, repetition.number).read_text(
            encoding="utf-8"
        )
        setup = begin_match(objects_of(replay)[0]).setup
        fixture = Fixture(
            repetition.team,
            setup,
            self.draws.keys(self.text, repetition.number, setup.agents),
        )
        again = repetitions.with_new_keys(fixture)
        words = terms_of(self.text, 0).commands[repetition.team]
        submission = store.stored_submission(self.out, repetition.team)
        with team_runners(self.sandbox, submission, words, setup, 1) as runners:
            team = programs.Team(
                again,
                {repetition.agent: words},
                self.limits.line,
                {repetition.agent: runners[0]},
                self.limits.match,
                programs.seeds_of(fixture),
                self.limits.match_space << 20,
            )
            return str(
                repetitions.repeat_agent(
                    team, again, repetitions.past_of(replay, repetition.agent)
                )
                or ""
            )


def in_a_line(fault: Exception) -> str:
    """A fault of the lab that nobody has foreseen."""
    return f"{type(fault).__name__}: {mistakes.plain(str(fault))}"


def replay_of(out: pathlib.Path, team: str, number: int) -> pathlib.Path:
    """Returns the path of a solved match's replay."""
    return out / SOLVED_FOLDER / f"{team}-{number}.jsonl"


def refused_of(out: pathlib.Path, team: str, number: int) -> pathlib.Path:
    """Returns the path of the messages about rejected lines of a solved match."""
    return out / SOLVED_FOLDER / f"{team}-{number}.refused.txt"


def solved_in(rows: Sequence[Row]) -> List[SolvedMatch]:
    """The solved matches of these rows."""
    return [
        SolvedMatch(int(row["run"]), row["team"], int(row["agents"]))
        for row in rows
        if report.is_solved(row)
    ]


def repeat_agents(
    job: Repeating, matches: Sequence[SolvedMatch], workers: int, rng: random.Random
) -> Dict[int, str]:
    """Repeats the agents of solved matches; gives what one of them says otherwise, by
    the numbers of matches. A team has as much time for its repetitions as for its
    matches."""
    budget = Budget(job.limits.team, {match.team: 0.0 for match in matches})
    orders = {
        match.number: rng.sample(range(match.agents), match.agents) for match in matches
    }
    differences: Dict[int, str] = {}

    def results() -> Iterator[Result]:
        for turn in range(max((match.agents for match in matches), default=0)):
            kernel_traces.stir()
            if job.forgets:
                kernel_traces.forget()
            due = [
                Repetition(match.number, match.team, orders[match.number][turn])
                for match in matches
                if turn < match.agents and match.number not in differences
            ]
            yield from one_round(job, rng.sample(due, len(due)), workers, budget)

    for result in along(
        results(), sum(match.agents for match in matches), "repetition"
    ):
        if result.fault:
            raise FileFormatError(result.fault)
        number, difference = result.result
        if difference:
            differences[number] = difference
    return differences


def one_round(
    job: Repeating, due: Sequence[Repetition], workers: int, budget: Budget
) -> Iterator[Result]:
    """The results of a round."""

    def instead(repetition: Repetition) -> Tuple[int, str]:
        return (
            repetition.number,
            f"agent {repetition.agent}: {league.NOT_REPEATED}: {budget.says(repetition.team)}",
        )

    return in_time(
        job, due, workers, LimitedJob(budget, operator.attrgetter("team"), instead)
    )
