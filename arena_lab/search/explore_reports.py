"""`explore` by the program: it tries the schedules, and the lab answers what agents do
(arena_lab/search/program_search.py). Where the program says nothing, as an agent may
use more than its quota, the Python model's search takes over, and says so."""
import pathlib
from typing import Any, Callable, List, NamedTuple, Optional, Sequence, Tuple

from arena_lab.play import kept_matches, games
from arena_lab.play.parallel import Parallelism
from arena_lab.play.teams import INSIDE, Game
from arena_lab.rules.engines import name_of
from arena_lab.search.capacity import OF_MODEL, fitting
from arena_lab.search.driver import ExploreJob, Search
from arena_lab.search.model_search import ExploredMatch, explore_match
from arena_lab.search.findings import (
    Breaks,
    Endless,
    Exceeds,
    ExploreAnswer,
    Fails,
    Solves,
    turns_of,
    verdict_of,
)
from arena_lab.search.history_tree import NoFunctionError
from arena_lab.search.match_results import (
    MatchResult,
    finding_with_schedule,
    program_schedule,
    unkept,
)
from arena_lab.search.program_search import SampleRequest
from arena_lab.support import built
from arena_lab.support.progress import bar

SOLVED_ALL = "every schedule that the lab tried solves"
SOLVED_MODULE = "every schedule solves"
# what distinguishes states of agents: steps, other agents inside the lab, and programs
OF_STEPS = "memories of Python steps"
OF_PYTHON = "histories of Python programs"
OF_PROGRAMS = "histories or declared memories of programs"
AS_STEPS = "an agent that is written as a step has fewer states: see `./arena-lab explore --help`"
# how an agent fails under a schedule that the program tells
FAILURES = {
    "program": "fails",
    "outside": "says a command before it has entered",
    "close": "fails when it is told that the match is over",
    "asleep": "sleeps, and nothing changes any more",
}
# and how its module does
MODULE_FAILURES = {
    "trap": "it traps",
    "fuel": "it burns more fuel than a command has",
    "command": "it gives a port or a text that is none",
}
# of the table of several networks
COLUMNS = ("network", "matches", "states", "moves", "lost", "seconds")
# text by whether the schedule is fair: each agent that can move throughout a round has
# a turn
FAIRNESS = {
    True: "and it is fair",
    False: "and it is not fair: an agent that can move never has a turn",
}


class ExploreRequest(NamedTuple):
    """A request to explore one game: the program, the file for results, and the
    workers."""

    game: Game
    program: str
    # the program that plays what is kept, or None for the Python model
    engine: Optional[str]
    states: int
    check: int
    keep: pathlib.Path
    parallelism: Parallelism = Parallelism()
    # the matches that were tried before, and what writes those that are tried now
    before: Sequence[MatchResult] = ()
    write: Optional[Callable[[MatchResult], None]] = None

    def job(self, draws: Optional[SampleRequest] = None) -> ExploreJob:
        """Returns the job that a worker process needs for the matches."""
        return ExploreJob(
            self.game.matches(), self.program, self.states, self.check, draws
        )

    def elsewhere(self) -> Optional[Parallelism]:
        """Returns the parallelism if workers explore the matches, None if this process
        does. Rows are written only by workers, because they read no other files."""
        return (
            None
            if self.parallelism == Parallelism() and not self.write
            else self.parallelism
        )


def explore_and_report(requests: Sequence[ExploreRequest]) -> int:
    """Tries the schedules of all matches of some games, up to the first game in which
    one fails or is not tried."""
    return in_turn(requests, explore_game)


def explore_game(request: ExploreRequest) -> Tuple[int, Search]:
    """Tries the schedules of all matches of a game, up to the first that fails."""

    def after(result: MatchResult, progress: Any) -> MatchResult:
        progress.clear()
        return with_model_search(request, result, progress)

    search = explore_all(
        request,
        Search(request.job(), request.elsewhere(), request.before, after),
        line_of,
    )
    return report_matches(request, search), search


def in_turn(
    requests: Sequence[ExploreRequest],
    try_game: Callable[[ExploreRequest], Tuple[int, Search]],
) -> int:
    """Explores games one after the other until one fails. For several games it then
    prints a table of results."""
    rows: List[Tuple[str, ...]] = [COLUMNS]
    status = 0
    for request in requests:
        if len(requests) > 1:
            print(f"{request.game.name}:", flush=True)
        status, search = try_game(request)
        if status:
            break
        rows.append(cells_of(request.game.name, search))
    if len(requests) > 1 and len(rows) > 1:
        print("\n".join(table_of(rows)))
    return status


def cells_of(name: str, search: Search) -> Tuple[str, ...]:
    """A row of the table: what the matches on a network came to."""
    moves, lost = zip(*(result.bounds() for result in search.tries))
    return (
        name,
        str(len(search.tries)),
        str(states_of(search)),
        str(max(moves)),
        str(max(lost)),
        f"{search.seconds:.1f}",
    )


def states_of(search: Search) -> int:
    """Returns how many states were visited of all matches."""
    return sum(result.answer.states or 0 for result in search.tries)


def table_of(rows: Sequence[Sequence[str]]) -> List[str]:
    """The lines of a table: names to the left, numbers to the right."""
    widths = [max(map(len, column)) for column in zip(*rows)]
    return [
        " ".join(
            [
                row[0].ljust(widths[0]),
                *(cell.rjust(width) for cell, width in zip(row[1:], widths[1:])),
            ]
        )
        for row in rows
    ]


def explore_all(
    request: ExploreRequest, search: Search, line: Callable[[MatchResult], str]
) -> Search:
    """Tries the matches of a game, and prints a line for each."""
    for result in request.before:
        print(f"{line(result)}, as it was written before", flush=True)
    with bar(None, "match" if request.elsewhere() else "answer") as progress:
        for result in search.results(progress):
            print(line(result), flush=True)
            if request.write and result.is_whole() and not result.has_failed():
                request.write(result)
    return search


def with_model_search(
    request: ExploreRequest, result: MatchResult, progress: Any
) -> MatchResult:
    """The match with what the Python model's search says of it, if the program says
    nothing."""
    finding = result.answer.finding
    game = request.game
    if not isinstance(finding, Exceeds):
        return result
    why = f"agent {finding.agent} may use {finding.commands} commands"
    if any(agent.kind != INSIDE for agent in game.agents):
        raise NoFunctionError(
            f"{why}, and the Python model's search, which takes over then, plays agents inside the lab "
            "alone"
        )
    print(f"{why}: the Python model's search takes over", flush=True)
    try:
        states = min(request.states, fitting(OF_MODEL))
        return result._replace(
            beside=explore_match(
                result.fixture, game.agents, progress, states, game.limit
            )
        )
    finally:
        progress.clear()


def failure_of(failure: Breaks, answer: ExploreAnswer) -> str:
    """Returns which agent fails under the schedule, and how."""
    module = answer.module(failure.agent)
    how = (
        f": {MODULE_FAILURES[module.failure]} in function {module.function}"
        if module and module.failure
        else ""
    )
    return f"agent {failure.agent} {FAILURES[failure.failure]}{how}"


def line_of(result: MatchResult) -> str:
    """Returns the line that reports one explored match."""
    if result.beside is not None:
        return model_line(result.beside)
    setup = result.fixture.setup
    answer = result.answer
    finding = result.answer.finding
    text = f"{answer.states} states, " if finding else answer.why
    if isinstance(finding, Endless):
        text += f"a schedule goes on for ever, {FAIRNESS[finding.fair]}"
    elif isinstance(finding, Breaks):
        text += f"under a schedule {failure_of(finding, answer)}"
    elif isinstance(finding, (Solves, Fails)):
        text += (
            "every schedule solves, most"
            if isinstance(finding, Solves)
            else "a schedule fails, its"
        ) + f" moves {finding.moves}"
    return f"home {setup.home} holes {setup.holes}: {text}, {answer.seconds:.1f} s"


def report_matches(request: ExploreRequest, search: Search) -> int:
    """Reports all matches, and writes the failing schedule."""
    tries = search.tries
    last = search.tries[-1]
    counts = f"{states_of(search)} states in {search.seconds:.1f} s"
    if last.beside is not None and (last.has_failed() or not last.is_whole()):
        return report_model_search(
            request.game, [last.beside], request.keep, request.engine
        )
    if not last.is_whole():
        print(
            f"{counts}: stopped before all were visited; no schedule failed until then"
        )
        if OF_PYTHON in distinction_of(request.game, last.answer):
            print(AS_STEPS)
        return 130
    if last.has_failed():
        print(f"{counts}: a schedule fails")
        return report_failure(request, last)
    says_less = any(result.beside is not None for result in tries)
    engine = name_of(request.program)
    by = "" if engine == built.PROGRAM else f", by {engine}"
    praise = SOLVED_MODULE if last.answer.modules else SOLVED_ALL
    apart = distinction_of(request.game, last.answer)
    text = (
        "no schedule fails, in part of the Python model"
        if says_less
        else f"{praise}, {apart}"
    )
    print(f"{counts}: {text}{by}; {search.checks}")
    moves, lost = zip(*(result.bounds() for result in tries))
    naps = request.game.naps
    findings = [result.answer.finding for result in tries]
    turns = [finding.turns for finding in findings if isinstance(finding, Solves)]
    suffix = (
        ""
        if says_less
        else f", most turns {max(turns)}, if agents nap at most {naps} times"
    )
    # an agent on a held link does not arrive where it would be lost
    lost_text = "no more agents lost than" if last.fixture.held else "most agents lost"
    print(f"most moves {max(moves)}, {lost_text} {max(lost)}{suffix}")
    for text in (
        repetition_differences(request.game)
        if request.check and not last.answer.modules
        else []
    ):
        print(f"warning: {text}")
    if any(result.answer.unwoken for result in tries):
        print(
            f"warning: some agents still sleep after {naps} naps, and what they do when they wake once more is not "
            f"known: try --spurious-wakeups {naps + 1}"
        )
    return 0


def distinction_of(game: Game, answer: ExploreAnswer) -> str:
    """Returns what distinguishes the states of the agents."""
    if answer.modules:
        digests = dict.fromkeys(run.module for run in answer.modules)
        return f"by memories of the module{'s' * (len(digests) > 1)} with the SHA-256 {', '.join(digests)}"
    kinds = (
        OF_STEPS
        if agent.is_step()
        else OF_PYTHON
        if agent.kind == INSIDE
        else OF_PROGRAMS
        for agent in game.agents
    )
    return f"by {' and '.join(dict.fromkeys(kinds))}"


def repetition_differences(game: Game) -> List[str]:
    """Repeats each agent of one drawn match alone, with another key, and returns the
    differences."""
    return games.play_seed(game, "fair", 0, None).repeat(game.limit).match.faults


def report_failure(request: ExploreRequest, result: MatchResult) -> int:
    """Prints the outcome of the failing schedule and keeps its match; gives the exit
    status."""
    finding = result.answer.finding
    setup = result.fixture.setup
    if isinstance(finding, Endless):
        print(
            f"home {setup.home} holes {setup.holes}: after {len(finding.schedule)} choices, the last "
            f"{len(finding.round)} of the schedule may be repeated for ever, {FAIRNESS[finding.fair]}"
        )
    elif isinstance(finding, Fails):
        # an agent on a held link does not arrive where it would be lost
        bound_text = "at most " if result.fixture.held else ""
        print(
            f"it comes to: home {setup.home} holes {setup.holes}, {finding.outcome} moves {finding.moves} lost "
            f"{bound_text}{finding.lost}"
        )
    keep(request, result)
    return 1


def keep(request: ExploreRequest, result: MatchResult) -> None:
    """Writes the schedule that the program tells, once the agents have played it to
    what the program says."""
    finding = finding_with_schedule(result)
    same = 2 if result.fixture.held else 3
    verdict = verdict_of(finding)
    try:
        match = kept_matches.keep(
            request.keep, program_schedule(request.game, result), request.engine
        )
        if (
            isinstance(finding, Breaks)
            and not match.faults
            or verdict
            and match.verdict()[:same] != verdict[:same]
        ):
            raise NoFunctionError(
                "played again it comes to something else: explore needs agents that are functions of "
                "what they are told"
            )
    except NoFunctionError:
        if not result.answer.modules:
            raise
        print(unkept(turns_of(finding)))


# reports of the Python model's search


def model_line(match: ExploredMatch) -> str:
    """Returns the line that reports one match explored by the Python model."""
    explorer = match.explorer
    setup = match.explorer.fixture.setup
    has_failed = match.rank()[0]
    text = (
        "a schedule fails"
        if has_failed
        else "every schedule solves"
        if match.is_whole
        else "stopped"
    )
    moves = explorer.worst.verdict.moves if explorer.worst else 0
    return (
        f"home {setup.home} holes {setup.holes}: {explorer.states()} states, {text}, "
        f"{'its' if has_failed else 'most'} moves {moves}, {match.seconds:.1f} s"
    )


def report_model_search(
    game: Game,
    matches: List[ExploredMatch],
    keep: pathlib.Path,
    program: Optional[str],
) -> int:
    """Reports all matches, and writes the match to keep."""
    worst = max(matches, key=ExploredMatch.rank)
    is_whole = all(match.is_whole for match in matches)
    states, seconds = (
        sum(column)
        for column in zip(
            *((match.explorer.states(), match.seconds) for match in matches)
        )
    )
    counts = f"{states} states in {seconds:.1f} s"
    end = worst.explorer.worst
    has_failed = end is not None and end.has_failed
    if has_failed:
        print(f"{counts}: a schedule fails")
    elif is_whole:
        print(f"{counts}: no schedule fails, of the Python model")
    else:
        print(
            f"{counts}: stopped before all were visited; no schedule failed until then"
        )
    if end is not None:
        setup = worst.explorer.fixture.setup
        print(
            f"{'it comes to' if end.has_failed else 'most moves'}: home {setup.home} holes {setup.holes}, "
            f"{end.verdict}"
        )
        match = kept_matches.keep(keep, worst.schedule(game), program)
        if match.verdict() != end.verdict:
            raise NoFunctionError(
                "played again it comes to another verdict: explore needs agents that are functions of "
                "what they are told"
            )
    return 1 if has_failed else 0 if is_whole else 130
