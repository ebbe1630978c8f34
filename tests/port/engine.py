"""Matches of machines under every schedule, by the definitions of docs/MODEL.md and
crates/bhs_explore/specs alone: all states that turns lead to, one by one, with none left
out. It shares no code with the lab and the program."""
from typing import Dict, List, NamedTuple, Optional, Protocol, Set, Tuple

End = Tuple[int, int]
# an observation, a command or a step, in words: ("here", 2, None, "") or ("depart", 1)
Words = Tuple[object, ...]
Memory = object
OVER: Words = ("over",)
BEFORE: Words = ("before",)
AFTER: Words = ("after",)
LIMIT = 5_000


class Machines(Protocol):
    """Agents as state machines: initial memory, transitions by observations, and
    actions."""

    def start(self, agent: int) -> Memory:
        ...

    def after(self, memory: Memory, words: Words) -> Memory:
        ...

    def does(self, memory: Memory) -> Words:
        ...


class Match(NamedTuple):
    """A network, and how a match on it is set up: `far` has the far end of each port of
    each node."""

    far: Tuple[Tuple[End, ...], ...]
    home: int
    holes: Tuple[int, ...]
    dark: Tuple[End, ...]
    held: Tuple[End, ...]
    agents: int
    quota: int
    board: int
    wakeups: int

    def is_dark(self, end: End) -> bool:
        return end in self.dark or self.far[end[0]][end[1]] in self.dark

    def dooms(self, end: End) -> bool:
        return self.is_dark(end) or self.far[end[0]][end[1]][0] in self.holes


class Agent(NamedTuple):
    """Where an agent is, what it holds, the link that it accused, how often it has woken,
    and how many commands of its quota it has used."""

    position: Words
    memory: Memory
    accused: Optional[End] = None
    woken: int = 0
    used: int = 0


class State(NamedTuple):
    """How a match stands: agents, whiteboards, and the nodes where somebody arrived."""

    agents: Tuple[Agent, ...]
    boards: Tuple[str, ...]
    reached: frozenset


class TooManyStatesError(Exception):
    """There are more states than are looked at."""


class Game(NamedTuple):
    """A match that machines play."""

    match: Match
    machines: Machines

    def opening(self) -> State:
        agents = tuple(
            Agent(BEFORE, self.machines.start(agent))
            for agent in range(self.match.agents)
        )
        return State(agents, ("",) * len(self.match.far), frozenset())

    def node_in_front(self, agent: Agent) -> Optional[int]:
        """The node whose whiteboard the agent has in front of it."""
        if agent.position == BEFORE:
            return self.match.home
        return agent.position[1] if agent.position[0] == "at" else None

    def next_words(self, agent: Agent) -> Optional[Words]:
        """Returns the agent's action in its turn; None for a move."""
        if agent.position[0] == "bound":
            end = agent.position[1:]
            is_stuck = end in self.match.held or self.match.dooms(end)
            return None if is_stuck else ("arrives",)
        step = self.machines.does(agent.memory)
        if agent.position == AFTER or step[0] in ("stops", "fails"):
            return None
        if step[0] == "sleeps" and agent.woken > self.match.wakeups:
            return None
        return step

    def turn(self, state: State, number: int) -> Tuple[State, bool]:
        """Returns the state after a turn of an agent, and whether it departs."""
        agent = state.agents[number]
        words = self.next_words(agent)
        assert words is not None
        boards = state.boards
        visits = state.reached
        if words[0] == "arrives":
            node, port = self.match.far[agent.position[1]][agent.position[2]]
            observations = ("here", len(self.match.far[node]), port, boards[node])
            changes = agent._replace(position=("at", node, port))
            visits |= {node}
        elif words[0] == "sleeps":
            observations = ("woke",)
            changes = agent._replace(woken=agent.woken + 1)
        else:
            changes, observations, boards = self.after_command(agent, words, boards)
        changes = changes._replace(
            memory=self.machines.after(agent.memory, observations)
        )
        agents = list(state.agents)
        agents[number] = changes
        for index, second in enumerate(agents):
            faced_value = self.node_in_front(second)
            was = self.node_in_front(state.agents[index])
            is_same = faced_value == was and (
                faced_value is None or boards[faced_value] == state.boards[faced_value]
            )
            if not is_same:
                agents[index] = second._replace(woken=0)
        return State(tuple(agents), boards, visits), observations == ("gone",)

    def after_command(
        self, agent: Agent, command: Words, boards: Tuple[str, ...]
    ) -> Tuple[Agent, Words, Tuple[str, ...]]:
        """Returns the result of a command by an agent at a node: agent, reply and
        whiteboards."""
        do = command[0]
        if agent.position == BEFORE:
            assert do == "enter"
            ports = len(self.match.far[self.match.home])
            entered_value = agent._replace(position=("at", self.match.home, None))
            return entered_value, ("here", ports, None, boards[self.match.home]), boards
        node, outcome = agent.position[1:]
        if do == "enter":
            return agent, ("no", "Twice"), boards
        if do == "leave":
            return agent._replace(position=AFTER), ("bye",), boards
        if agent.used >= self.match.quota:
            return agent, ("no", "Spent"), boards
        agent = agent._replace(used=agent.used + 1)
        ports = len(self.match.far[node])
        if do == "bad":
            return agent, ("no", "Line"), boards
        if do == "look":
            return agent, ("here", ports, outcome, boards[node]), boards
        if do == "write":
            return agent, *self.after_write(node, command, boards)
        if command[1] >= ports:
            return agent, ("no", "Port"), boards
        end = (node, command[1])
        if do == "depart":
            return agent._replace(position=("bound", *end)), ("gone",), boards
        return agent._replace(position=AFTER, accused=end), ("noted",), boards

    def after_write(
        self, node: int, command: Words, boards: Tuple[str, ...]
    ) -> Tuple[Words, Tuple[str, ...]]:
        """What comes of a write at a node."""
        _, expect, text = command
        if len(str(text)) > self.match.board:
            return ("no", "Long"), boards
        if boards[node] != expect:
            return ("changed", boards[node]), boards
        return ("written",), (*boards[:node], str(text), *boards[node + 1 :])

    def failure(self, state: State, number: int) -> Optional[str]:
        """How an agent has failed, though the match may go on."""
        agent = state.agents[number]
        step = self.machines.does(agent.memory)
        if step == ("fails",):
            return "program"
        speaks = step[0] not in ("sleeps", "stops", "enter")
        return "outside" if agent.position == BEFORE and speaks else None

    def late_failure(self, state: State, number: int) -> Optional[str]:
        """How an agent fails once nothing more can happen."""
        agent = state.agents[number]
        if agent.position[0] == "bound":
            over = self.machines.after(agent.memory, OVER)
            return "close" if self.machines.does(over) == ("fails",) else None
        sleeps = self.machines.does(agent.memory) == ("sleeps",)
        return "asleep" if agent.position == BEFORE and sleeps else None

    def outcome(self, state: State) -> str:
        """Returns the outcome if the match closed in this state."""
        match = self.match
        links = [it.accused for it in state.agents if it.accused is not None]
        ends = {end for link in links for end in (link, match.far[link[0]][link[1]])}
        if not all(match.dooms(link) for link in links):
            return "wrong"
        names = {match.far[node][port][0] for node, port in links}
        if not (links and names >= {*match.holes} and {*match.dark} <= ends):
            return "silent"
        if any(it.position[0] == "at" for it in state.agents):
            return "unfinished"
        safe = {*range(len(match.far))} - {match.home, *match.holes}
        is_guess = not safe <= state.reached
        if is_guess and not all(match.is_dark(link) for link in links):
            return "guess"
        return "solved"

    def lost(self, state: State) -> int:
        """Returns how many agents are on links that destroy them."""
        return sum(
            it.position[0] == "bound" and self.match.dooms(it.position[1:])
            for it in state.agents
        )

    def movers(self, state: State) -> List[int]:
        """The agents that can move."""
        return [
            number
            for number, agent in enumerate(state.agents)
            if self.next_words(agent) is not None
        ]


def again(state: State) -> Tuple[object, ...]:
    """Returns the part of a state that recurs in a cycle."""
    return (
        tuple((it.position, it.memory, it.woken) for it in state.agents),
        state.boards,
    )


class SpentMost(NamedTuple):
    """The most that schedules still spend: moves, turns, and commands of each agent; and
    the most agents that are lost."""

    moves: int
    turns: int
    commands: Tuple[int, ...]
    lost: int


class All:
    """What all schedules of a game come to: the first failure that is met, in words, or
    else what they spend at most."""

    def __init__(self, game: Game) -> None:
        self.game = game
        self.failures: Set[str] = set()
        self.spent: Dict[State, SpentMost] = {}
        self._open: Set[Tuple[object, ...]] = set()
        self.look()

    def look(self) -> None:
        """Visits all states, in depth."""
        work: List[Tuple[State, List[Tuple[State, bool, int]]]] = []
        first = self.game.opening()
        self.enter(first, work)
        while work:
            state, nexts = work[-1]
            remaining = [it[0] for it in nexts if it[0] not in self.spent]
            if not remaining:
                work.pop()
                self._open.discard(again(state))
                self.spent[state] = self.sum(state, nexts)
            elif again(remaining[0]) in self._open:
                self.failures.add("endless")
                self.spent[remaining[0]] = SpentMost(
                    0, 0, (0,) * self.game.match.agents, 0
                )
            else:
                self.enter(remaining[0], work)
        self.whole = self.spent[first]

    def enter(
        self, state: State, work: List[Tuple[State, List[Tuple[State, bool, int]]]]
    ) -> None:
        """Goes on to a state, unless an agent has failed in it."""
        if len(self.spent) + len(work) > LIMIT:
            raise TooManyStatesError
        agents = range(self.game.match.agents)
        failures = {self.game.failure(state, agent) for agent in agents} - {None}
        movers = [] if failures else self.game.movers(state)
        if not failures and not movers:
            failures = {self.game.late_failure(state, agent) for agent in agents}
            failures -= {None}
            if self.game.outcome(state) != "solved":
                failures.add("unsolved")
        self.failures |= {str(failure) for failure in failures}
        self._open.add(again(state))
        work.append(
            (state, [(*self.game.turn(state, agent), agent) for agent in movers])
        )

    def sum(self, state: State, nexts: List[Tuple[State, bool, int]]) -> SpentMost:
        """The most that schedules spend from a state on, from the same of the next
        states."""
        agents = range(self.game.match.agents)
        behind = [(self.spent[it[0]], it) for it in nexts]
        return SpentMost(
            max((usage.moves + it[1] for usage, it in behind), default=0),
            max((usage.turns + 1 for usage, _ in behind), default=0),
            tuple(
                max(
                    (
                        usage.commands[agent]
                        + it[0].agents[agent].used
                        - state.agents[agent].used
                        for usage, it in behind
                    ),
                    default=0,
                )
                for agent in agents
            ),
            max(
                (usage.lost for usage, _ in behind),
                default=self.game.lost(state),
            ),
        )
