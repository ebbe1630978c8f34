"""The programs of agents, each by itself: how they begin, and their next step after a
reply or a wake-up."""
import collections
from typing import Any, Deque, Dict, List, NamedTuple, Optional, Sequence, Tuple

from arena_lab.play import programs
from arena_lab.play.foreign_files import Notes
from arena_lab.play.matches import STUCK
from arena_lab.play.players import DEPARTED, DONE, SLEEPS, WAITS, WAKES, Player, Team
from arena_lab.play.agent_files import Script
from arena_lab.play.teams import INSIDE, AgentWords
from arena_lab.rules.fixtures import Fixture
from arena_lab.rules.model import (
    LAST,
    OVER as TOLD_OVER,
    command_of,
    denial,
    spell,
    text_of,
)
from arena_lab.search.history_tree import EARLY, NoFunctionError

SAYS = "says"
SLEEP = "sleeps"
STOP = "stops"
FAIL = "fails"
LEAVE = b'{"do":"leave"}'
# the last replies to an agent, and the replies after which it sees nothing
ENDS = {spell(reply) for reply in LAST}
OVER = spell(TOLD_OVER)
BLIND = ENDS | {DEPARTED}
# (memory, news): the memory before (negative: the start of an agent) and the news that
# led to this memory
History = Tuple[int, str]


class AgentStep(NamedTuple):
    """The next action of an agent: it sends a line, sleeps, stops or has failed."""

    does: str
    line: bytes = b""

    def __str__(self) -> str:
        return (
            f"says {self.line.decode(errors='replace')}"
            if self.does == SAYS
            else self.does
        )


class AgentProcess:
    """An agent's program, and whether it has entered, was denied, and has ended."""

    def __init__(self, player: Any) -> None:
        self.player = player
        self.has_entered = False
        self.is_denied = False
        self.has_ended = False

    def close(self) -> None:
        """Ends the program."""
        self.player.stop()

    def is_over(self) -> bool:
        """Returns whether nothing more comes of the program."""
        return (
            self.has_ended
            or self.is_denied
            or self.player.state == DONE
            or self.player.fault is not None
        )

    def step(self) -> AgentStep:
        """Returns the program's next action."""
        player = self.player
        is_over = self.is_denied or self.has_ended
        if player.fault is not None:
            return AgentStep(FAIL)
        if player.state == SLEEPS and not is_over:
            return AgentStep(SLEEP)
        if player.state != WAITS or is_over:
            return AgentStep(STOP)
        if player.line is None:
            return AgentStep(SAYS, LEAVE) if self.has_entered else AgentStep(STOP)
        if (
            type(player.line) is not bytes
            or not player.line.strip()
            or b"\n" in player.line
        ):
            raise NoFunctionError(
                f"agent {player.number} sends {player.line!r}, which is no line"
            )
        return AgentStep(SAYS, player.line)


class AgentProcesses:
    """Begins the programs of a team's agents, and tells them what happens."""

    def __init__(
        self, fixture: Fixture, agents: List[AgentWords], seconds: float
    ) -> None:
        self._fixture = fixture
        self._agents = agents
        inside = [agent for agent in agents if agent.kind == INSIDE]
        self._scripts: Dict[str, Script] = {
            agent.words: agent.script(fixture.setup) for agent in inside
        }
        # the team inside the lab, whose clocks end programs that compute without end
        self.team = Team(fixture.keys, {}, seconds)
        self._outside = programs.Team(fixture, {}, seconds)
        self.start = self.team.start
        self.stop = self.team.stop
        # what the programs of all agents inside the lab read and reach
        self.notes = Notes()

    def start_process(self, agent: int) -> AgentProcess:
        """The program of an agent, which has begun."""
        words = self._agents[agent].words
        key = self._fixture.keys[agent]
        if self._agents[agent].kind == INSIDE:
            player: Any = Player(self.team, agent, key, self._scripts[words])
            vars(player._thread)["notes"] = self.notes
            process = AgentProcess(player)
            player.go_on()
        else:
            runner = self._agents[agent].runner_for(self._fixture)
            player = programs.Player(self._outside, agent, words, runner)
            player.start()
            player.begin()
            player.settle()
            process = AgentProcess(player)
        self._deny(process)
        return process

    def tell_all(self, process: AgentProcess, all_news: Sequence[str]) -> None:
        """Takes a program along noted news. One inside the lab takes most of them in
        one turn: see `Player.receive`."""
        ahead = collections.deque(all_news)
        while ahead:
            self.send_news(process, ahead.popleft(), ahead)

    def send_news(
        self, process: AgentProcess, news: str, ahead: Optional[Deque[str]] = None
    ) -> None:
        """Tells a program a line, or wakes it. It may take lines that are ahead."""
        player = process.player
        if player.state == DONE or process.is_denied:
            return
        if news != WAKES and player.state == WAITS and player.line is None:
            # its input had ended, so it hears nothing
            player.state = DONE
        else:
            news = self._heard(process, news, ahead)
        self._deny(process)
        process.has_ended = process.has_ended or news in ENDS
        if news in BLIND and news != OVER:
            self._wake(player)
        if news == DEPARTED and player.state == WAITS and player.line is not None:
            raise NoFunctionError(EARLY.format(player.number))

    def _heard(
        self, process: AgentProcess, news: str, ahead: Optional[Deque[str]]
    ) -> str:
        """Has a program hear a line or wake; gives the last news that it took."""
        player = process.player
        before = tuple(ahead or ())
        if isinstance(player, Player):
            player.latest = news
            player.ahead = ahead
        if news == WAKES:
            player.go_on()
        else:
            player.hear(news)
        if isinstance(player, Player):
            player.ahead = None
        taken_count = len(before) - len(ahead or ())
        process.has_entered = process.has_entered or news != WAKES or taken_count > 0
        return before[taken_count - 1] if taken_count > 0 else news

    def _wake(self, player: Any) -> None:
        """Wakes an agent that sees nothing: what it does then depends on nothing that
        happens. It wakes as often as it may, and is stuck if it still sleeps."""
        for _ in range(self._fixture.naps + 1):
            if player.state == SLEEPS:
                player.go_on()
        if player.state == SLEEPS:
            player.fault = player.fault or STUCK

    def _deny(self, process: AgentProcess) -> None:
        """Denies what a server denies: a first line that does not enter by the agent's
        key."""
        player = process.player
        if process.has_entered or player.state != WAITS or player.line is None:
            return
        command = command_of(text_of(player.line))
        agent_key = self._fixture.keys[player.number]
        key = command.get("key")
        if key in self._fixture.keys and key != agent_key:
            player.stop("enters with the key of another agent")
            process.is_denied = True
        elif denial(command, [agent_key], []) is not None:
            process.is_denied = True
            player.hear(spell(denial(command, [agent_key], [])))
