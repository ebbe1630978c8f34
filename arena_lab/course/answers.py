"""Answers to exercises: plays them, tries every schedule where an exercise asks for it,
and says what is to be mended."""
import contextlib
import io
import time
from typing import Any, List, NamedTuple, Optional, Tuple

from arena_lab.course.check_jobs import Alarm, CheckBudget
from arena_lab.course.exercises import Exercise, ExerciseMatch
from arena_lab.course.scripts import script_agent
from arena_lab.play.agent_files import AgentError
from arena_lab.play.games import Record, maker_of, play_again
from arena_lab.play.kept_matches import played_under
from arena_lab.play.schedulers import ImpossibleError
from arena_lab.play.schedules import schedule_of
from arena_lab.play.teams import DRAWS, AgentWords, Game
from arena_lab.rules import draws, networks
from arena_lab.rules.networks import Network
from arena_lab.search.history_tree import NoFunctionError
from arena_lab.search.search_results import explore_games

# seconds for a line, and the beginning of the fault of an agent whose first line was
# denied
LINE = 5
DENIED_PREFIX = "was not let in"
# defaults of a search of every schedule: seconds and states
SECONDS = 60
MAX_STATES = 100_000
# schedules of each match that the agents play again, to see that they answer alike
CHECKED_SAMPLES = 2


class Answer(NamedTuple):
    """The check of an answer to an exercise: the last match played, and the advice; no
    advice if the answer is right."""

    record: Record
    lines: List[str]


def check_answer(
    exercise: Exercise,
    agent: AgentWords,
    program: Optional[str] = None,
    seconds: float = SECONDS,
    may_run_inside: bool = False,
) -> Answer:
    """Plays the matches of an exercise up to the first mistake. If there is none, and the
    exercise asks for it, tries every schedule until `seconds` are over, matches
    included. Without a program the Python model plays. Its search needs agents inside
    this process, which only who runs a program of one's own may allow."""
    until = time.monotonic() + seconds
    records: List[Record] = []
    for match in exercise.matches:
        record = play_match(exercise, match, agent, program)
        lines = to_mend(exercise, record)
        if lines:
            return Answer(record, [f"{lines[0]} (on {match})", *lines[1:]])
        records.append(record)
    lines = exercise.check_all(
        [(record.match.match, record.schedule.fixture.keys) for record in records]
    )
    if lines or not exercise.every:
        return Answer(records[-1], lines)
    is_inside = may_run_inside and not program
    inside = script_agent(exercise.is_told()) if is_inside else None
    failure, lines = every_schedule(exercise, agent, program, until, inside)
    return Answer(failure or records[-1], lines)


def play_match(
    exercise: Exercise, match: ExerciseMatch, agent: AgentWords, program: Optional[str]
) -> Record:
    """Plays a match of an exercise."""
    fixture = exercise.fixture(match)
    agents = [agent] * exercise.agents
    empty = schedule_of(fixture, agents, f"exercise {exercise.name}", [], LINE)
    chosen = maker_of(match.scheduler)(match.seed)
    return Record(*played_under(chosen, empty, program), program)


def played_outside(record: Record, agent: AgentWords) -> Record:
    """The match of a schedule that was found inside the lab, played by the program
    itself, if that goes along."""
    agents = [agent] * len(record.schedule.agents)
    try:
        return play_again(record.schedule._replace(agents=agents), record.program)
    except ImpossibleError:
        return record


def every_schedule(
    exercise: Exercise,
    agent: AgentWords,
    program: Optional[str],
    until: float,
    inside: Optional[AgentWords] = None,
) -> Tuple[Optional[Record], List[str]]:
    """Tries every schedule of the exercise's network, with each black hole, until this
    time, by the agent `inside` the lab if there is one: the match of a schedule that
    fails, and what is to be mended."""
    of_all = f"every schedule of {exercise.every}"
    alarm = Alarm(CheckBudget(max(0.0, until - time.monotonic())))
    silence = contextlib.ExitStack()
    silence.enter_context(contextlib.redirect_stderr(io.StringIO()))
    silence.enter_context(contextlib.redirect_stdout(io.StringIO()))
    try:
        with alarm, silence:
            games = games_of(exercise, inside or agent)
            result: Any = explore_games(
                games, MAX_STATES, program, check=CHECKED_SAMPLES
            )
    except (AgentError, NoFunctionError) as fault:
        return None, [f"{of_all} cannot be tried: {fault}"]
    except KeyboardInterrupt:
        if not alarm.has_rung:
            raise
        result = None
    if result is not None and result.fails and result.worst is not None:
        record = played_outside(result.worst, agent) if inside else result.worst
        where = f"under a schedule of {exercise.every}"
        lines = to_mend(exercise, record) or [str(record.judge())]
        return record, [f"{lines[0]} ({where})", *lines[1:]]
    if result is None:
        return None, [f"{of_all} could not be tried in the time of a trial"]
    if not result.solves:
        return None, [
            f"{of_all} cannot be tried: there are more than {MAX_STATES} states, or an agent may use up its commands"
        ]
    return None, []


def games_of(exercise: Exercise, agent: AgentWords) -> List[Game]:
    """The games whose every schedule is tried: one for each numbering of the ports."""
    network = networks.network_named(exercise.every)
    agents = [agent] * exercise.agents
    game = Game(exercise.every, network, agents, limit=LINE)
    return [game._replace(ports=ports) for ports in numberings_of(exercise, network)]


def numberings_of(exercise: Exercise, network: Network) -> List[int]:
    """Returns the seeds by which the ports of the exercise's network are numbered."""
    return draws.numberings(network, exercise.numberings, range(DRAWS))


def to_mend(exercise: Exercise, record: Record) -> List[str]:
    """Returns the advice for a match: crashed or hung programs first, then what the
    exercise checks, then rejected lines."""
    faults = record.match.faults
    denials = [fault for fault in faults if DENIED_PREFIX in fault]
    return [
        *(fault for fault in faults if fault not in denials),
        *exercise.check(record.match.match),
        *denials,
        *record.match.refusals,
    ]
