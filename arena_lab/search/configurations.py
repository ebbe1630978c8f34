"""Configurations of a match: what agents and the referee can tell of it, as
crates/bhs_protocols/specs/Configurations.antt has them. A candidate invariant is a test
of configurations, and its file imports what it needs from here.

Positions, histories, what is used, accusations and wakings stand by the number of the
agent, whiteboards by the number of the node.
"""
import functools
import json
from dataclasses import dataclass
from typing import (
    Any,
    Callable,
    Dict,
    FrozenSet,
    List,
    NamedTuple,
    Optional,
    Sequence,
    Tuple,
    TypeVar,
    Union,
)

from arena_lab.play.players import SLEEPS, WAITS
from arena_lab.rules.model import AWAY, BYE, OUTSIDE, PRESENT, Match, Object, Place
from arena_lab.search.history_tree import Past, HistoryState, is_unanswered

Memory = TypeVar("Memory")


@dataclass(frozen=True)
class Before:
    """An agent before its entry."""


@dataclass(frozen=True)
class At:
    """An agent at a node, and the port of its arrival (None at its entry)."""

    node: int
    came: Optional[int]


@dataclass(frozen=True)
class Bound:
    """An agent on a link, by the node that it left and the port."""

    node: int
    port: int


@dataclass(frozen=True)
class After:
    """An agent that has accused or left."""


Position = Union[Before, At, Bound, After]
# an event of an agent's history: a reply, or None for a wake-up
WOKE = None
Item = Optional[Object]
# all that has happened to an agent, the newest first
History = Tuple[Item, ...]


class Configuration(NamedTuple):
    """A match as it stands after some turns."""

    position: Tuple[Position, ...]
    history: Tuple[History, ...]
    woken: Tuple[int, ...]
    used: Tuple[int, ...]
    shown: Tuple[str, ...]
    accused: Tuple[Optional[Place], ...]
    # the nodes at which an agent has arrived
    reached: FrozenSet[int]
    moves: int


class Bounds(NamedTuple):
    """The most moves that are made, agents that are lost, commands of an agent, and
    turns that move. Commands may be one number for each agent; None bounds nothing."""

    moves: Optional[int] = None
    lost: Optional[int] = None
    commands: Union[int, Sequence[int], None] = None
    turns: Optional[int] = None


class World:
    """The constant part of a match: network, black holes and dark links."""

    def __init__(self, match: Match) -> None:
        setup = match.setup
        self.nodes = setup.nodes
        self.home = setup.home
        self.holes = tuple(setup.holes)
        self.dark = tuple(setup.dark)
        self.agents = setup.agents
        self.quota = setup.quota
        self.board = setup.board
        self._match = match

    def degree(self, node: int) -> int:
        """Returns how many links a node has."""
        return len(self._match.far[node])

    def far(self, node: int, port: int) -> Place:
        """Returns the far end of a port's link: node and label."""
        return self._match.far[node][port]

    def doomed(self, node: int, port: int) -> bool:
        """Returns whether an agent that departs by this port is destroyed."""
        return self._match.destroys(node, port)


def held_after(
    start: Memory, after: Callable[[Memory, Item], Memory], history: History
) -> Memory:
    """The memory of an agent after a history: the memory at the start, changed by
    `after` for each item."""
    return functools.reduce(after, reversed(history), start)


class Configurations:
    """The configurations of a match by its states."""

    def __init__(self) -> None:
        self._histories: Dict[Past, History] = {}

    def of(self, state: HistoryState) -> Configuration:
        """The configuration of a state."""
        pasts = state.pasts
        # the link that each agent has accused, by its node and port
        accusations = tuple(
            past.accused[-1] if past.accused else None for past in pasts
        )
        return Configuration(
            tuple(map(position_of, pasts)),
            tuple(map(self._history, pasts)),
            state.woken,
            tuple(past.agent.used for past in pasts),
            state.boards,
            accusations,
            frozenset().union(*(past.reached for past in pasts)),
            sum(past.moves for past in pasts),
        )

    def _history(self, past: Past) -> History:
        """Returns the events of an agent up to a node of its history tree."""
        waiting: List[Past] = []
        at: Optional[Past] = past
        while at is not None and at not in self._histories:
            waiting.append(at)
            at = at.before
        history: History = self._histories[at] if at is not None else ()
        for later in reversed(waiting):
            history = self._histories[later] = (*news_of(later), *history)
        return history


def news_of(past: Past) -> History:
    """Returns the latest events of an agent, the newest first."""
    before = past.before
    if before is None or is_unanswered(before):
        return ()
    if before.state == SLEEPS:
        return (WOKE,)
    if before.state == WAITS and before.line is None:
        # its program has ended, and it leaves
        return (BYE,)
    return tuple(object_in(line) for line in reversed(past.heard))


@functools.lru_cache(maxsize=None)
def object_in(line: str) -> Any:
    return json.loads(line)


def position_of(past: Past) -> Position:
    agent = past.agent
    if agent.standing == OUTSIDE:
        return Before()
    if agent.standing == PRESENT:
        return At(agent.node, agent.came)
    return Bound(agent.node, agent.port) if agent.standing == AWAY else After()
