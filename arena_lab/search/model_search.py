"""Tries every schedule of a match: the states of the Python model, each visited once.

Two matches go on alike once each agent has met the same, each whiteboard says the same,
and each sleeper has woken equally often: an agent's answers are a function of its past,
which is the arena's own theorem. A step that neither reads nor writes a whiteboard,
such as a departure, changes nothing for anybody else, now or later, so it is taken at
once and no other order is tried.
"""
import math
import time
from array import array
from typing import Any, Dict, Iterator, List, NamedTuple, Optional, Sequence, Set, Tuple

from arena_lab.play.agent_files import AgentError
from arena_lab.play.bounds import LIMIT
from arena_lab.play.players import SLEEPS, TRAVELS, WAITS, Team
from arena_lab.play.schedulers import ANSWER, ARRIVE, WAKE, Choice
from arena_lab.play.schedules import Schedule, schedule_of
from arena_lab.play.teams import INSIDE, AgentWords, Game
from arena_lab.rules.fixtures import Fixture
from arena_lab.rules.model import AWAY, ENDED, Match, Verdict, outcome_of
from arena_lab.search.history_tree import Past, Pasts, HistoryState

MAX_STATES = 10_000_000
DOES = {WAITS: ANSWER, TRAVELS: ARRIVE, SLEEPS: WAKE}


class TooManyStatesError(Exception):
    """The search exceeded its limit of states."""


class End(NamedTuple):
    """A final state of the match: whether it fails, the verdict, and the number of the
    state."""

    has_failed: bool
    verdict: Verdict
    number: int

    def rank(self) -> Tuple[bool, int]:
        return self.has_failed, self.verdict.moves


class Explorer:
    """All states of one match. Of each state it keeps the state before it, and the
    agent that moved."""

    def __init__(
        self, fixture: Fixture, team: Team, scripts: List[Any], limit: int
    ) -> None:
        self.fixture = fixture
        self.worst: Optional[End] = None
        self.most_lost = 0
        self._most = limit
        self._match = Match(fixture.setup)
        self._held = set(fixture.held)
        self._pasts = [
            Pasts(fixture, number, script, team)
            for number, script in enumerate(scripts)
        ]
        self._seen: Set[Tuple[int, ...]] = set()
        self._before = array("q")
        self._moved = array("b")
        self._texts: Dict[str, int] = {}

    def states(self) -> int:
        return len(self._before)

    def explore(self) -> Iterator[int]:
        """Visits all states, up to the first failure; gives now and then how many were
        visited since."""
        start = self._start()
        self._new(start, -1, -1)
        stack = [(start, 0)]
        visit_count = 0
        while stack:
            state, number = stack.pop()
            movers = self._movers(state)
            if not movers and self._end(state, number):
                return
            for agent in movers:
                after = self._after(state, agent)
                count = self.states()
                if self._new(after, number, agent):
                    stack.append((after, count))
            if self.states() - visit_count >= 1000:
                yield self.states() - visit_count
                visit_count = self.states()

    def forget(self) -> None:
        """Drops what only the search needs."""
        self._seen.clear()

    def schedule(self, number: int) -> List[Choice]:
        """The choices that lead to a state."""
        agents: List[int] = []
        while self._before[number] >= 0:
            agents.append(self._moved[number])
            number = self._before[number]
        state = self._start()
        choices = []
        for agent in reversed(agents):
            choices.append(Choice(DOES[state.pasts[agent].state], agent))
            state = self._after(state, agent)
        return choices

    def _start(self) -> HistoryState:
        """How the match stands before anything has happened."""
        return HistoryState(
            tuple(past.start for past in self._pasts),
            ("",) * self.fixture.setup.nodes,
            (0,) * len(self._pasts),
        )

    def _new(self, state: HistoryState, before: int, agent: int) -> bool:
        """Numbers a state; answers whether it was not seen before."""
        texts = self._texts
        key = (
            *(past.number for past in state.pasts),
            *(texts.setdefault(text, len(texts)) for text in state.boards),
            *state.woken,
        )
        if key in self._seen:
            return False
        if len(self._before) >= self._most:
            raise TooManyStatesError
        self._seen.add(key)
        self._before.append(before)
        self._moved.append(agent)
        return True

    def _movers(self, state: HistoryState) -> List[int]:
        """The agents whose next steps are to be tried: one that meets nobody by
        itself."""
        movers = [
            agent
            for agent, past in enumerate(state.pasts)
            if self._can_move(past, state.woken[agent])
        ]
        return next(
            ([agent] for agent in movers if state.pasts[agent].is_local), movers
        )

    def _can_move(self, past: Past, woken: int) -> bool:
        if past.state == TRAVELS:
            agent = past.agent
            return (
                agent.standing == AWAY
                and not agent.lost
                and (agent.node, agent.port) not in self._held
            )
        return (
            past.state == WAITS or past.state == SLEEPS and woken <= self.fixture.naps
        )

    def _after(self, state: HistoryState, agent: int) -> HistoryState:
        """The state after the next step of an agent."""
        past = state.pasts[agent]
        ahead = self._pasts[agent].node_ahead(past)
        text = state.boards[ahead]
        new, new_board = self._pasts[agent].step(past, text)
        pasts = (*state.pasts[:agent], new, *state.pasts[agent + 1 :])
        woken = list(state.woken)
        woken[agent] = (
            0 if past.state == TRAVELS else woken[agent] + (past.state == SLEEPS)
        )
        if is_blind(new) and not is_blind(past):
            woken[agent] = 0
        if new_board == text:
            return HistoryState(pasts, state.boards, tuple(woken))
        woken = [
            0 if past_of.agent.node == ahead and not is_blind(past_of) else wakes
            for wakes, past_of in zip(woken, pasts)
        ]
        return HistoryState(
            pasts,
            (*state.boards[:ahead], new_board, *state.boards[ahead + 1 :]),
            tuple(woken),
        )

    def _end(self, state: HistoryState, number: int) -> bool:
        """Judges the match that ends here; answers whether the team fails."""
        match = self._match
        match.agents = [past.agent for past in state.pasts]
        match.accused = [link_end for past in state.pasts for link_end in past.accused]
        match.reached = {node for past in state.pasts for node in past.reached}
        lost = sum(past.agent.lost for past in state.pasts)
        verdict = Verdict(
            outcome_of(match), sum(past.moves for past in state.pasts), lost
        )
        stuck = any(past.state == SLEEPS for past in state.pasts)
        closed_pasts = [
            tree.close(past) if past.state == TRAVELS else past
            for tree, past in zip(self._pasts, state.pasts)
        ]
        has_failed = (
            not verdict.is_solved or stuck or any(past.fault for past in closed_pasts)
        )
        end = End(has_failed, verdict, number)
        self.most_lost = max(self.most_lost, lost)
        if self.worst is None or end.rank() > self.worst.rank():
            self.worst = end
        return has_failed


def is_blind(past: Past) -> bool:
    """Returns whether an agent sees nothing: it is on a link, or has ended."""
    return past.agent.standing in (AWAY, ENDED)


class ExploredMatch(NamedTuple):
    """A match whose schedules were tried."""

    explorer: Explorer
    is_whole: bool
    seconds: float

    def rank(self) -> Tuple[bool, int]:
        """Returns the rank for reports: failures first, then the most moves."""
        return self.explorer.worst.rank() if self.explorer.worst else (False, -1)

    def schedule(self, game: Game) -> Schedule:
        """The schedule that comes to its worst end, which there is."""
        assert self.explorer.worst is not None
        choices = self.explorer.schedule(self.explorer.worst.number)
        return schedule_of(
            self.explorer.fixture,
            game.agents,
            f"explore{game.origin}",
            choices,
            game.limit,
        )


def check_inside(game: Game) -> None:
    """Raises AgentError for programs, whose states cannot be distinguished."""
    if any(agent.kind != INSIDE for agent in game.agents):
        raise AgentError(
            "the Python model's search plays Python agents inside the lab: name them by --agent"
        )


def explore_matches(game: Game, states: int, progress: Any) -> Iterator[ExploredMatch]:
    """Tries the schedules of each match of a game, up to one that fails or has too many
    states."""
    check_inside(game)
    for fixture in game.fixtures():
        match = explore_match(fixture, game.agents, progress, states, game.limit)
        yield match
        if not match.is_whole or match.rank()[0]:
            return


def explore_match(
    fixture: Fixture,
    agents: Sequence[AgentWords],
    progress: Any,
    states: int = MAX_STATES,
    limit: float = LIMIT,
    seconds: float = math.inf,
) -> ExploredMatch:
    """Tries the schedules of one match, for this many seconds of a processor."""
    team = Team(fixture.keys, {}, limit)
    start = time.monotonic()
    until = time.process_time() + seconds
    team.start()
    try:
        scripts = [agent.script(fixture.setup) for agent in agents]
        explorer = Explorer(fixture, team, scripts, states)
        is_whole = is_visited(explorer, progress, until)
        return ExploredMatch(explorer, is_whole, time.monotonic() - start)
    finally:
        team.stop()


def is_visited(explorer: Explorer, progress: Any, until: float = math.inf) -> bool:
    """Visits all states, and shows how many; gives whether it came to the end: before
    these seconds of a processor, with no more states than are allowed, and not
    interrupted."""
    try:
        for count in explorer.explore():
            progress.update(count)
            if time.process_time() > until:
                return False
    except (TooManyStatesError, KeyboardInterrupt):
        return False
    finally:
        explorer.forget()
    return True
