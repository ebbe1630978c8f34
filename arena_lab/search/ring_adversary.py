"""An adversary of two agents on a ring, after the proof in docs/PROTOCOLS.md that every
team of two must move.

It gives one agent turns alone, then perhaps the other, and decides last which node is
the black hole. A node is new if nobody has reached it. While one agent is on a link to
a new node, the other one alone has to reach all other new nodes in order and to accuse:
else the team fails with the black hole there. Nothing is kept of agents between runs:
each run is played from the beginning, by the turns that led there, in the match whose
black hole the run is about.
"""
from typing import Dict, Iterator, List, NamedTuple, Sequence, Tuple

from arena_lab.play.matches import PlayedMatch, play
from arena_lab.play.schedulers import Choice, MatchView, ScheduleEndedError, Scheduler
from arena_lab.play.schedules import Schedule, schedule_of
from arena_lab.play.teams import Game, Together
from arena_lab.rules.fixtures import Fixture
from arena_lab.rules.model import AWAY, GONE, PRESENT, Match
from arena_lab.rules.rehearsal import Rehearsal
from arena_lab.search.ring_bounds import rounds
from arena_lab.support.faults import ArenaError

# after how many turns an agent alone is taken to go on for ever
MAX_TURNS = 100_000
AGENTS = 2


class NotARingError(ArenaError):
    """The adversary plays two agents on a ring."""


def steps_of(new: int) -> int:
    """Returns how many of the new nodes the adversary lets an agent explore in a
    phase."""
    power = 1 << rounds(new) - 1
    return power // 2 if new == power + 1 else new - 1 - power


class Spot(NamedTuple):
    """An agent's state before one of its turns, with the moves of the match so far."""

    standing: str
    node: int
    port: int
    moves: int


class TurnsBefore:
    """A scheduler that repeats these turns and then follows `go_on`. Turns of agents
    that cannot act are skipped."""

    def __init__(self, turns: Sequence[int], go_on: Scheduler) -> None:
        self._turns = iter(turns)
        self._go_on = go_on

    def __call__(self, choices: Sequence[Choice], state: MatchView) -> Choice:
        possible = {choice.agent: choice for choice in choices}
        for agent in self._turns:
            if agent in possible:
                return possible[agent]
        return self._go_on(choices, state)


class RunAlone:
    """A scheduler that runs one agent alone as long as it can act; it records the
    agent's state before each turn."""

    def __init__(self, agent: int) -> None:
        self._agent = agent
        self.spots: List[Spot] = []
        self._read = 0
        self._moves = 0

    def __call__(self, choices: Sequence[Choice], state: MatchView) -> Choice:
        self.note(state.match)
        mine = [choice for choice in choices if choice.agent == self._agent]
        if not mine or len(self.spots) > MAX_TURNS:
            raise ScheduleEndedError
        return mine[0]

    def note(self, match: Match) -> None:
        """Notes where the agent is."""
        self._moves += sum(event["reply"] == GONE for event in match.log[self._read :])
        self._read = len(match.log)
        agent = match.agents[self._agent]
        self.spots.append(Spot(agent.standing, agent.node, agent.port, self._moves))


class Departure:
    """A scheduler that alternates agents until one is on a link; it records the
    turns."""

    def __init__(self) -> None:
        self.turns: List[int] = []

    def __call__(self, choices: Sequence[Choice], state: MatchView) -> Choice:
        if len(self.turns) > MAX_TURNS or any(
            agent.standing == AWAY for agent in state.match.agents
        ):
            raise ScheduleEndedError
        last = self.turns[-1] if self.turns else 1
        choice = max(choices, key=lambda choice_of: choice_of.agent != last)
        self.turns.append(choice.agent)
        return choice


class RestScheduler:
    """The agents have turns by turns until nothing can happen any more."""

    def __init__(self) -> None:
        self._count = 0

    def __call__(self, choices: Sequence[Choice], state: MatchView) -> Choice:
        self._count += 1
        if self._count > MAX_TURNS:
            raise ScheduleEndedError
        return choices[self._count % len(choices)]


class WayOut(NamedTuple):
    """How an agent came alone to a link to a new node: in how many turns, to which
    place of the line it went back before, and the moves of the match then."""

    turns: int
    back: int
    moves: int


class Arcs(NamedTuple):
    """The nodes as a line: explored ones first, then new ones. One agent is on a link
    to the first new node, the other on a link to the last node. `turns` led there, with
    `moves` moves."""

    line: Tuple[int, ...]
    arc_explored: int
    agent: int
    turns: Tuple[int, ...]
    moves: int

    @property
    def new(self) -> int:
        """Returns how many nodes are new."""
        return len(self.line) - self.arc_explored

    def mirror(self) -> "Arcs":
        """The same seen from the other agent."""
        explored_line = self.line[: self.arc_explored]
        new = self.line[self.arc_explored :]
        return self._replace(line=explored_line[::-1] + new[::-1], agent=1 - self.agent)

    def after(self, index: int, way_out: WayOut) -> "Arcs":
        """Returns the arcs after the agent's way to a link to the node at this
        index."""
        return self._replace(
            arc_explored=index,
            turns=self.turns + (self.agent,) * way_out.turns,
            moves=way_out.moves,
        )

    def ends(self) -> Tuple[int, int]:
        """The new nodes that the agents are on links to."""
        return self.line[self.arc_explored], self.line[-1]


class Phase(NamedTuple):
    """A phase: the agent that went on, the number of explored nodes that it crossed on
    its way back, and the new configuration."""

    agent: int
    back: int
    arcs: Arcs


class BeatenError(Exception):
    """The team does not find this black hole: why, and after whose turns."""

    def __init__(self, why: str, hole: int, turns: Sequence[int]) -> None:
        super().__init__(why)
        self.why = why
        self.hole = hole
        self.turns = turns


class Adversary:
    """Plays a game's team, phase by phase."""

    def __init__(self, game: Game) -> None:
        self.game = game
        setup = game.fixture(0).setup
        if setup.agents != AGENTS or setup.dark or set(game.network.degrees()) != {2}:
            raise NotARingError(
                "the adversary plays two agents on a ring without dark links: --network ring:N --agents 2"
            )
        self.nodes = setup.nodes
        self._far = Match(setup).far
        self.around = self._walked(setup.home)
        if len(self.around) != self.nodes:
            raise NotARingError(
                "the adversary plays on one ring, and this network is not connected"
            )

    def _walked(self, home: int) -> List[int]:
        """Returns the nodes of the ring in order, beginning with the home base's port
        0."""
        nodes = [home]
        node, port = self._far[home][0]
        while node != home:
            nodes.append(node)
            node, port = self._far[node][1 - port]
        return nodes

    def fixture(self, hole: int) -> Fixture:
        """The match with this black hole."""
        fixture = self.game.fixture(0)
        return fixture._replace(setup=fixture.setup._replace(holes=[hole]))

    def play_match(
        self, hole: int, turns: Sequence[int], go_on: Scheduler
    ) -> PlayedMatch:
        """The match with this black hole: these turns, and then what is chosen."""
        fixture = self.fixture(hole)
        team = Together(self.game.agents, fixture, self.game.limit)
        return play(Rehearsal(fixture), team, TurnsBefore(turns, go_on), fixture)

    def at_rest(self, hole: int, turns: Sequence[int]) -> Tuple[PlayedMatch, Schedule]:
        """Plays these turns with this black hole until nothing can happen; returns the
        match and its schedule."""
        match = self.play_match(hole, turns, RestScheduler())
        origin = f"adversary{self.game.where()}"
        return match, schedule_of(
            self.fixture(hole),
            self.game.agents,
            origin,
            match.choices,
            self.game.limit,
        )

    def phases(self) -> Iterator[Phase]:
        """Plays until two nodes are new. Raises Beaten if the team does not find some
        black hole."""
        arcs = self.start_arcs()
        yield Phase(arcs.agent, 0, arcs)
        while arcs.new > 2:
            phase = self.next(arcs)
            arcs = phase.arcs
            yield phase

    def start_arcs(self) -> Arcs:
        """Returns the first configuration: one agent is on a link to a neighbour of the
        home base, and the other continues to the other neighbour."""
        departure = Departure()
        hole = self.around[1]
        match = self.play_match(hole, [], departure).match
        away = [
            number
            for number, agent in enumerate(match.agents)
            if agent.standing == AWAY
        ]
        if not away:
            spared_node = next(
                node
                for node in self.around[1:]
                if not any(self._far[v][p][0] == node for v, p in match.accused)
            )
            raise BeatenError("no agent departs", spared_node, departure.turns)
        agent = match.agents[away[0]]
        first = self._far[agent.node][agent.port][0]
        other_nodes = (
            self.around[1:][::-1] if first == self.around[1] else self.around[1:]
        )
        before = Arcs(
            (self.around[0], *other_nodes), 1, 1 - away[0], tuple(departure.turns), 1
        )
        return before.after(1, self.ways(before)[1])

    def ways(self, arcs: Arcs) -> Dict[int, WayOut]:
        """How the agent comes alone to each new node but the last one, if that is the
        black hole, by their places."""
        alone = RunAlone(arcs.agent)
        hole = arcs.line[-1]
        match = self.play_match(hole, arcs.turns, alone).match
        turns = arcs.turns + (arcs.agent,) * len(alone.spots)
        if [self._far[v][p][0] for v, p in match.accused] != [hole]:
            raise BeatenError(
                f"agent {arcs.agent} alone does not accuse node {hole}, to which the other agent is on its "
                "way",
                hole,
                turns,
            )
        _ways = self._ways_of(arcs, alone.spots)
        missing_indices = [
            index
            for index in range(arcs.arc_explored, self.nodes - 1)
            if index not in _ways
        ]
        if missing_indices:
            raise BeatenError(
                f"agent {arcs.agent} accuses node {hole} before node {arcs.line[missing_indices[0]]} was reached",
                arcs.line[missing_indices[0]],
                turns,
            )
        return _ways

    def _ways_of(self, arcs: Arcs, spots: Sequence[Spot]) -> Dict[int, WayOut]:
        """Returns for each new node the way by which the agent reaches it, from its
        recorded states."""
        indices = {node: number for number, node in enumerate(arcs.line)}
        ways_by_front: Dict[int, WayOut] = {}
        back = arcs.arc_explored
        front = arcs.arc_explored
        for count, spot in enumerate(spots):
            if spot.standing == PRESENT:
                back = min(back, indices[spot.node])
                front = max(front, indices[spot.node] + 1)
            elif (
                spot.standing == AWAY
                and indices[self._far[spot.node][spot.port][0]]
                == front
                < self.nodes - 1
            ):
                ways_by_front.setdefault(front, WayOut(count, back, spot.moves))
        return ways_by_front

    def next(self, arcs: Arcs) -> Phase:
        """Lets the agent go on that makes more moves, to the middle of the new nodes if
        they are one more than a power of two, and until then past the others."""
        mirrored_arcs = arcs.mirror()
        ways = self.ways(arcs)
        other_ways = self.ways(mirrored_arcs)
        for index in range(arcs.arc_explored + 1, self.nodes - 1):
            way_out = ways[index]
            other_way = other_ways[self.nodes - 1 + arcs.arc_explored - index]
            if way_out.back + other_way.back >= arcs.arc_explored:
                raise BeatenError(
                    f"both agents come to links to node {arcs.line[index]}, and neither can know of the other",
                    arcs.line[index],
                    arcs.after(index, way_out).turns
                    + (mirrored_arcs.agent,) * other_way.turns,
                )
        index = arcs.arc_explored + steps_of(arcs.new)
        phases = [
            Phase(
                side.agent, arcs.arc_explored - way_out.back, side.after(index, way_out)
            )
            for side, way_out in (
                (arcs, ways[index]),
                (mirrored_arcs, other_ways[index]),
            )
        ]
        return max(phases, key=lambda phase: phase.arcs.moves)
