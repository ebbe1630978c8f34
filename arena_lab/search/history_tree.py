"""The pasts of an agent as a tree. Each past stands there once, with what the agent's
program does next.

An agent's program is a function of its answers. So its past says where it is, what
it has used and which line it sends next. To continue a past after which no program
waits, its program is run again from the start.
"""
import collections
import copy
from typing import Dict, FrozenSet, List, NamedTuple, Optional, OrderedDict, Tuple

from arena_lab.play.agent_files import Script
from arena_lab.play.matches import IS_REFUSED, MAX_REFUSED, REFUSAL_PREFIX
from arena_lab.play.players import DONE, SLEEPS, TRAVELS, WAITS, Player, Team
from arena_lab.rules.fixtures import Fixture, enters_as_another
from arena_lab.rules.model import (
    AWAY,
    ENDED,
    GONE,
    OVER,
    AgentState,
    Place,
    command_of,
    spell,
    text_of,
)
from arena_lab.rules.rehearsal import Rehearsal
from arena_lab.support.faults import ArenaError

# how many programs are left where they wait, to go on from there
MAX_PROGRAMS_LEFT = 4096
READS = ("enter", "look", "write")
# of an agent that sends more lines than it waits for answers
EARLY = "agent {} sends a line before it has arrived: explore needs agents that wait for each answer"


class NoFunctionError(ArenaError):
    """An agent cannot be explored, for example because it reacted differently to the
    same history."""


class Past:
    """The history of one agent, and the next action of its program."""

    def __init__(
        self,
        before: Optional["Past"],
        heard: Tuple[str, ...],
        agent: AgentState,
        is_seated: bool,
    ) -> None:
        self.before = before
        self.heard = heard
        self.agent = agent
        self.is_seated = is_seated
        self.state = WAITS
        self.line: Optional[bytes] = None
        self.fault: Optional[str] = None
        self.accused: Tuple[Place, ...] = before.accused if before else ()
        self.reached: FrozenSet[int] = before.reached if before else frozenset()
        self.moves: int = before.moves if before else 0
        self.refused: int = refused_in_a_row(before.refused if before else 0, heard)
        self.is_local = False
        self.number = 0
        self.later: Dict[Tuple[str, ...], "Past"] = {}
        # what comes of the agent's next step, by the text of the whiteboard that it
        # meets: its past, and the text then
        self.steps: Dict[str, Tuple["Past", str]] = {}


def refused_in_a_row(before: int, heard: Tuple[str, ...]) -> int:
    """Returns how often an agent was refused in a row, once it has heard these lines
    too."""
    for line in heard:
        before = before + 1 if line.startswith(REFUSAL_PREFIX) else 0
    return before


class Pasts:
    """The pasts of one agent."""

    def __init__(
        self, fixture: Fixture, number: int, script: Script, team: Team
    ) -> None:
        self._alone = Rehearsal(fixture)
        self._fixture = fixture
        self._number = number
        self._script = script
        self._team = team
        self._left: OrderedDict[Past, Player] = collections.OrderedDict()
        self.count = 0
        agent = AgentState()
        agent.node = fixture.setup.home
        self.start = Past(None, (), agent, False)
        self._settle(self.start, self._begun())

    def node_ahead(self, past: Past) -> int:
        """The node whose whiteboard the agent's next step meets."""
        agent = past.agent
        return (
            self._alone.match.far[agent.node][agent.port][0]
            if past.state == TRAVELS
            else agent.node
        )

    def step(self, past: Past, board: str) -> Tuple[Past, str]:
        """Returns the past after the agent's next step (a reply, an arrival or a
        wake-up), and the whiteboard after it."""
        step = past.steps.get(board)
        if step is None:
            step = past.steps[board] = self._taken(past, board)
        return step

    def _taken(self, past: Past, board: str) -> Tuple[Past, str]:
        if past.state == SLEEPS or is_unanswered(past):
            return self._next(past, (), past.agent, past.is_seated), board
        alone = self._alone
        number = self._number
        ahead = self.node_ahead(past)
        alone.set_alone(number, copy.copy(past.agent), past.is_seated, board)
        alone.match.boards[ahead] = board
        if past.state == TRAVELS:
            command = alone.draw(0)
        elif past.line is None:
            command = alone.end(number)
        elif past.agent.standing == AWAY:
            raise NoFunctionError(EARLY.format(number))
        elif not past.is_seated and enters_as_another(self._fixture, number, past.line):
            raise NoFunctionError(
                f"agent {number} enters with the key of another agent"
            )
        else:
            command = alone.feed(number, past.line)
        heard = tuple(line for _, line in command)
        if refused_in_a_row(past.refused, heard) >= MAX_REFUSED:
            alone.end(number)
        return (
            self._next(
                past, heard, alone.match.agents[number], alone.is_seated(number)
            ),
            alone.match.boards[ahead],
        )

    def close(self, past: Past) -> Past:
        """Returns the past of an agent on a link after it received the end of the
        match."""
        self._alone.set_alone(self._number, copy.copy(past.agent), past.is_seated, "")
        return self._next(past, (spell(OVER),), past.agent, past.is_seated)

    def _next(
        self, past: Past, heard: Tuple[str, ...], agent: AgentState, is_seated: bool
    ) -> Past:
        """Returns the successor of a past in which the agent has received these lines
        or woken."""
        later = past.later.get(heard)
        if later is None:
            later = past.later[heard] = Past(past, heard, agent, is_seated)
            self._note(later, past)
            self._settle(later, self._player_at(past), past)
        return later

    def _note(self, past: Past, before: Past) -> None:
        """Notes what the last step shows of the agent."""
        match = self._alone.match
        if before.state != SLEEPS and not is_unanswered(before):
            past.accused += tuple(match.accused)
            past.reached |= frozenset(match.reached)
            past.moves += sum(
                event["do"] == "depart" and event["reply"] == GONE
                for event in match.log
            )

    def _settle(
        self, past: Past, player: Player, before: Optional[Past] = None
    ) -> None:
        """Gives the player the last answers of the past, and keeps what it does next."""
        if before is not None:
            move(player, before, past.heard)
            if past.refused >= MAX_REFUSED:
                player.stop(IS_REFUSED)
        past.number = self.count
        self.count = self.count + 1
        past.state = player.state
        past.line = player.line
        past.fault = player.fault
        past.is_local = self._is_local(past)
        self._left[past] = player
        if len(self._left) > MAX_PROGRAMS_LEFT:
            self._left.popitem(last=False)[1].stop()

    def _is_local(self, past: Past) -> bool:
        """Returns whether the agent's next step neither reads nor writes a whiteboard,
        so that it meets nobody."""
        match = self._alone.match
        agent = past.agent
        if past.state == TRAVELS:
            return agent.standing == AWAY and match.destroys(agent.node, agent.port)
        if past.state == WAITS:
            return (
                past.line is None or command_of(text_of(past.line))["do"] not in READS
            )
        return False

    def _begun(self) -> Player:
        player = Player(
            self._team, self._number, self._fixture.keys[self._number], self._script
        )
        player.go_on()
        return player

    def _player_at(self, past: Past) -> Player:
        """Returns a program that has received this past: a suspended one, or one that
        is replayed."""
        player = self._left.pop(past, None)
        if player is not None:
            return player
        steps: List[Tuple[Past, Past]] = []
        while past.before is not None:
            steps.append((past.before, past))
            past = past.before
        player = self._begun()
        for before, after in reversed(steps):
            move(player, before, after.heard)
            if (player.state, player.line) != (after.state, after.line):
                raise NoFunctionError(
                    f"agent {self._number} sends {player.line!r} where it sent {after.line!r}, having "
                    "heard the same: explore needs agents that are functions of what they are told"
                )
        return player


def is_unanswered(past: Past) -> bool:
    """Returns whether an agent says something once it has ended: nobody answers it."""
    return (
        past.state == WAITS and past.line is not None and past.agent.standing == ENDED
    )


def move(player: Player, before: Past, heard: Tuple[str, ...]) -> None:
    """Lets a player go on from a past: it hears these answers, or wakes."""
    if before.state == SLEEPS:
        player.go_on()
    elif before.state == WAITS and before.line is None:
        player.state = DONE
    elif before.state == WAITS:
        # its line is taken, also if nobody answers, as once the agent has ended
        player.line = None
    for line in heard:
        player.hear(line)


class HistoryState(NamedTuple):
    """How a match stands: the past of each agent, each whiteboard's text, and how often
    each agent has woken since the whiteboard in front of it changed."""

    pasts: Tuple[Past, ...]
    boards: Tuple[str, ...]
    woken: Tuple[int, ...]
