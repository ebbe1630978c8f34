"""A match whose schedules the program tried or drew
(arena_lab/search/program_search.py), and the schedule that it tells, as the agents play
it."""
from typing import Dict, List, NamedTuple, Optional, Sequence, Tuple, Union

from arena_lab.play.matches import MatchRun
from arena_lab.play.schedulers import ANSWER, ARRIVE, WAKE, Choice
from arena_lab.play.schedules import Schedule, schedule_of
from arena_lab.play.teams import AgentWords, Game, Together
from arena_lab.rules.fixtures import Fixture
from arena_lab.rules.model import AWAY, ENDED, OUTSIDE
from arena_lab.rules.rehearsal import Rehearsal
from arena_lab.search.model_search import ExploredMatch
from arena_lab.search.findings import (
    FAILED,
    SOLVED,
    Breaks,
    Comes,
    Exceeds,
    ExploreAnswer,
    Failure,
    turns_of,
)
from arena_lab.search.history_tree import NoFunctionError


class MatchResult(NamedTuple):
    """A match whose schedules the program tried. `beside` is the Python model's search,
    where the program could not. `read` has the SHA-256 of each file that its agents
    read; it is empty unless rows are written."""

    fixture: Fixture
    answer: ExploreAnswer
    beside: Optional[ExploredMatch] = None
    read_hashes: Dict[str, str] = {}

    def has_failed(self) -> bool:
        return (
            self.beside.rank()[0]
            if self.beside
            else isinstance(self.answer.finding, FAILED)
        )

    def is_whole(self) -> bool:
        if self.beside:
            return self.beside.is_whole
        return self.answer.finding is not None and not isinstance(
            self.answer.finding, Exceeds
        )

    def bounds(self) -> Tuple[int, int]:
        """The most moves, and the most agents lost, if no schedule fails."""
        if self.beside:
            worst = self.beside.explorer.worst
            assert (
                worst is not None
            ), "a match whose schedules were all tried has an end"
            return worst.verdict.moves, worst.verdict.lost
        finding = self.answer.finding
        assert isinstance(finding, SOLVED), "no schedule fails"
        return finding.moves, finding.lost


def finding_with_schedule(result: MatchResult) -> Union[Comes, Failure]:
    """Returns the program's finding, which must contain a schedule."""
    finding = result.answer.finding
    assert isinstance(finding, (Comes, *FAILED)), "the program tells a schedule"
    return finding


def program_schedule(game: Game, result: MatchResult) -> Schedule:
    """The schedule that the program tells, as the agents play it."""
    finding = finding_with_schedule(result)
    choices = choices_of(
        result.fixture,
        game.agents,
        turns_of(finding),
        finding.agent if isinstance(finding, Breaks) else None,
        game.limit,
    )
    return schedule_of(
        result.fixture, game.agents, f"explore{game.origin}", choices, game.limit
    )


def unkept(turns: Sequence[int]) -> str:
    """Returns the line for a schedule that the module player cannot replay."""
    return (
        "the schedule is not kept, since the player of a module that sleeps looks again by the clock; its turns: "
        f"{' '.join(map(str, turns))}"
    )


def choices_of(
    fixture: Fixture,
    agents: Sequence[AgentWords],
    turns: Sequence[int],
    breaks: Optional[int],
    seconds: float,
) -> List[Choice]:
    """Replays turns, and returns the choices made. Sleeping agents are woken at once,
    and an agent that breaks before it enters is denied. In the end the lost agents
    arrive at black holes."""
    team = Together(agents, fixture, seconds)
    run = MatchRun(Rehearsal(fixture), team, fixture)
    team.start()
    try:
        for agent in turns:
            choice = next(
                (
                    possible_choice
                    for possible_choice in run.may_happen()
                    if possible_choice.agent == agent
                ),
                None,
            )
            if choice is None:
                raise NoFunctionError(
                    f"agent {agent} does nothing at choice {len(run.choices) + 1}, where it did something"
                )
            run.happen(choice)
            wake(run, agent)
        for choice in run.may_happen():
            is_denied = (
                choice.agent == breaks
                and run.match.agents[choice.agent].standing == OUTSIDE
            )
            if choice.do == ARRIVE or is_denied and choice.do == ANSWER:
                run.happen(choice)
        return run.choices
    finally:
        team.stop()


def wake(run: MatchRun, agent: int) -> None:
    """Wakes an agent that sleeps on a link, or once it has ended, as often as it
    may."""
    while (
        run.match.agents[agent].standing in (AWAY, ENDED)
        and Choice(WAKE, agent) in run.may_happen()
    ):
        run.happen(Choice(WAKE, agent))
