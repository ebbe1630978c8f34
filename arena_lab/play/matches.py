"""Plays a match, by an engine, a team and a scheduler."""
import json
from typing import Dict, List, NamedTuple, Optional, Protocol, Sequence, Tuple

from arena_lab.play.mistakes import PORT, UNENDED, Refusals
from arena_lab.play.players import DONE, SLEEPS, TRAVELS, WAITS, faults_of
from arena_lab.play.schedulers import (
    ANSWER,
    ARRIVE,
    WAKE,
    Choice,
    ScheduleEndedError,
    ImpossibleError,
    Scheduler,
)
from arena_lab.rules.engines import Engine
from arena_lab.rules.fixtures import Fixture, enters_as_another
from arena_lab.rules.model import (
    AWAY,
    ENDED,
    OUTSIDE,
    Match,
    Object,
    Verdict,
    command_of,
    judge,
    text_of,
)
from arena_lab.rules.rehearsal import SentLine

# a session that was refused so often in a row is ended by the lab: no rule of the arena
# ends it
MAX_REFUSED = 1000
REFUSAL_PREFIX = '{"no":'
IS_REFUSED = f"was refused {MAX_REFUSED} times in a row"
STUCK = "sleeps, and nothing changes any more"
# what an agent sees that is on a link or has ended: nothing, so nothing changes
BLIND = (-1, 0)


class Player(Protocol):
    """An agent's program, inside the lab or outside."""

    number: int
    state: str
    line: Optional[bytes]
    fault: Optional[str]
    # what a program outside wrote to standard error, once it has ended
    errors: str

    def hear(self, line: str) -> None:
        ...

    def go_on(self) -> None:
        ...

    def read_hashes(self) -> Dict[str, str]:
        ...

    def stable_text(self, text: str) -> str:
        ...

    def rest(self) -> bytes:
        ...

    def stop(self, fault: Optional[str] = None) -> None:
        ...


class Team(Protocol):
    """The programs of a match."""

    @property
    def players(self) -> Sequence[Player]:
        ...

    def start(self) -> None:
        ...

    def stop(self) -> None:
        ...


class PlayedMatch(NamedTuple):
    """A match that was played: the choices that were made, the match by the Python
    model, the script, the engine's replay, and the players' faults."""

    choices: List[Choice]
    match: Match
    script: List[bytes]
    replay: bytes
    faults: List[str]
    # what programs wrote to standard error, by the numbers of their agents
    errors: Dict[int, str] = {}
    # the SHA-256 of each file that agents inside the lab have read, by their names
    read_hashes: Dict[str, str] = {}
    # messages about rejected lines, which are no faults
    refusals: List[str] = []

    def verdict(self) -> Verdict:
        return judge(self.match)

    def has_failed(self) -> bool:
        """Returns whether the match is unsolved, or an agent has a fault."""
        return bool(self.faults) or not self.verdict().is_solved


def changes_board(event: Object) -> bool:
    """Returns whether an event of a log changes a whiteboard: a write of the text that
    stands there does not."""
    return bool(
        event["do"] == "write"
        and event["reply"] == {"ok": "written"}
        and event["put"] != event["expect"]
    )


class MatchRun:
    """A match in progress. Connection i belongs to agent i."""

    def __init__(self, engine: Engine, team: Team, fixture: Fixture) -> None:
        self.engine = engine
        self.team = team
        self.choices: List[Choice] = []
        self._fixture = fixture
        self._held = set(fixture.held)
        # of each agent the whiteboard's node, and how often it was written, when the
        # agent woke last; and how often it has woken since
        self._woke: Dict[int, Tuple[Tuple[int, int], int]] = {}
        self._writes: Dict[int, int] = {}
        self._refused: Dict[int, int] = {}
        # rejected lines, and the last line of each agent
        self.refusals = Refusals(fixture.keys)
        self._last: Dict[int, bytes] = {}
        self._read = 0

    @property
    def match(self) -> Match:
        """How the match stands, by the Python model."""
        return self.engine.match

    def said(self, agent: int) -> Optional[Object]:
        """Returns the command of an agent that waits for a reply, or None."""
        line = self.team.players[agent].line
        return None if line is None else command_of(text_of(line))

    def may_happen(self) -> List[Choice]:
        """Returns the possible choices, at most one per agent, in the order of
        agents."""
        choices = (self._of(player) for player in self.team.players)
        return [choice for choice in choices if choice]

    def happen(self, choice: Choice) -> None:
        """Lets something happen, and the players hear of it."""
        self.choices.append(choice)
        player = self.team.players[choice.agent]
        if choice.do == ARRIVE:
            self._woke.pop(choice.agent, None)
            self._tell(self.engine.draw(self.engine.match.pool.index(choice.agent)))
        elif choice.do == WAKE:
            self._woke[choice.agent] = (
                self._seen(choice.agent),
                self._wakings(choice.agent) + 1,
            )
            player.go_on()
        else:
            self._answer(player)
        self._note_writes()

    def _answer(self, player: Player) -> None:
        """Takes a player's line, or the end of its input."""
        line = player.line
        player.line = None
        if line is not None and enters_as_another(self._fixture, player.number, line):
            player.stop("enters with the key of another agent")
            line = None
        if line is None:
            self._tell(self.engine.end(player.number))
            player.state = DONE
        else:
            self._last[player.number] = line
            self._tell(self.engine.feed(player.number, line))
            if (
                player.state == WAITS
                and player.line is None
                and self.match.agents[player.number].standing == AWAY
            ):
                # a line sent before the arrival is answered after it
                player.state = TRAVELS

    def close(self) -> None:
        """Ends the match. Sleeping players are stuck; players on links receive the end
        of the match."""
        for player in self.team.players:
            if player.state == SLEEPS:
                player.fault = player.fault or STUCK
        self._tell(self.engine.close())

    def _of(self, player: Player) -> Optional[Choice]:
        """Returns the possible choice of a player's agent, if any."""
        number = player.number
        if player.state == WAITS:
            return Choice(ANSWER, number)
        if player.state == TRAVELS and self._may_arrive(number):
            return Choice(ARRIVE, number)
        if player.state == SLEEPS and self._wakings(number) <= self._fixture.naps:
            return Choice(WAKE, number)
        return None

    def _may_arrive(self, number: int) -> bool:
        agent = self.engine.match.agents[number]
        return (
            agent.standing == AWAY
            and not agent.lost
            and (agent.node, agent.port) not in self._held
        )

    def _wakings(self, number: int) -> int:
        """Returns how often an agent woke since the whiteboard at its node last
        changed. It wakes once per change, plus the allowed spurious wake-ups."""
        board, times = self._woke.get(number, (None, 0))
        return times if board == self._seen(number) else 0

    def _seen(self, number: int) -> Tuple[int, int]:
        """The whiteboard in front of an agent, and how often it was written. On a link,
        and once it has ended, it sees none."""
        agent = self.engine.match.agents[number]
        if agent.standing in (AWAY, ENDED):
            return BLIND
        node = self._fixture.setup.home if agent.standing == OUTSIDE else agent.node
        return node, self._writes.get(node, 0)

    def _note_writes(self) -> None:
        log = self.engine.match.log
        for event in log[self._read :]:
            if changes_board(event):
                node = self.engine.match.agents[event["agent"]].node
                self._writes[node] = self._writes.get(node, 0) + 1
        self._read = len(log)

    def _note(self, player: Player, reply: str) -> None:
        """Notes a line that is refused: the last one of its agent."""
        if reply.startswith(REFUSAL_PREFIX):
            agent = self.match.agents[player.number]
            ports = len(self.match.far[agent.node])
            board = self.match.setup.board
            why = str(json.loads(reply)["no"])
            fact = (
                f"the node has the ports 0 to {ports - 1}"
                if why == PORT
                else f"a whiteboard holds {board} bytes"
            )
            self.refusals.note(
                player.number,
                why,
                self._last.get(player.number, b""),
                player.stable_text,
                fact,
            )

    def note_rests(self) -> None:
        """Notes what programs have sent behind their last line feed."""
        for player in self.team.players:
            if player.rest():
                self.refusals.note(
                    player.number, UNENDED, player.rest(), player.stable_text
                )

    def _tell(self, sent_lines: List[SentLine]) -> None:
        for number, line in sent_lines:
            player = self.team.players[number]
            if player.state == DONE:
                continue
            self._note(player, line)
            player.hear(line)
            self._refused[number] = (
                self._refused.get(number, 0) + 1
                if line.startswith(REFUSAL_PREFIX)
                else 0
            )
            if self._refused[number] >= MAX_REFUSED:
                player.stop(IS_REFUSED)
                self.engine.end(number)


def play(
    engine: Engine, team: Team, scheduler: Scheduler, fixture: Fixture
) -> PlayedMatch:
    """Plays until nothing can happen any more, or a recorded schedule ends, and closes
    the match."""
    run = MatchRun(engine, team, fixture)
    try:
        team.start()
        while choices := run.may_happen():
            try:
                choice = scheduler(choices, run)
            except ScheduleEndedError:
                break
            except ImpossibleError:
                raise
            except Exception as fault:
                raise ImpossibleError(
                    f"the scheduler raises {type(fault).__name__}: {fault}"
                ) from fault
            if choice not in choices:
                raise ImpossibleError(
                    f"the scheduler chooses {choice!r}, which is not among the choices"
                )
            run.happen(choice)
        run.close()
        replay = engine.replay()
    finally:
        team.stop()
        engine.stop()
    run.note_rests()
    errors = {player.number: player.errors for player in team.players if player.errors}
    digests = {
        name: digest
        for player in team.players
        for name, digest in player.read_hashes().items()
    }
    return PlayedMatch(
        run.choices,
        engine.match,
        engine.script,
        replay,
        faults_of(team.players),
        errors,
        digests,
        run.refusals.sentences(),
    )
