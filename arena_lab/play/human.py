"""A match whose agents are played by a person, who sees what each agent sees and no
more until the match is over."""
import json
import random
from typing import Any, Dict, List, NamedTuple, Optional, Tuple

from arena_lab.rules.fixtures import Fixture
from arena_lab.rules.model import OVER, Match, Object, Verdict, judge, spell
from arena_lab.rules.rehearsal import Rehearsal, SentLine

OUTSIDE = "outside"
AT_A_NODE = "at a node"
ON_A_LINK = "on a link"
ENDED = "ended"
MATCH_OVER = "the match is over"
# answers after which an agent can do nothing more
LAST = ("noted", "bye")


class ConversationLine(NamedTuple):
    """A line of an agent's conversation, and whether the agent sent it."""

    is_said: bool
    text: str


class AgentRecord:
    """The observations of one agent: its position, the node that it saw last, and its
    conversation."""

    def __init__(self) -> None:
        self.standing = OUTSIDE
        self.ports = 0
        self.came: Optional[int] = None
        self.board = ""
        self.lines: List[ConversationLine] = []

    def note_command(self, command: Object) -> None:
        self.lines.append(ConversationLine(True, spell(command)))

    def note_answer(self, text: str, answer: Object, command: Optional[Object]) -> None:
        """Takes an answer: to a command, or an arrival."""
        self.lines.append(ConversationLine(False, text))
        status = answer.get("ok")
        if answer == OVER:
            self.standing = MATCH_OVER
        elif status == "here":
            self.standing = AT_A_NODE
            self.ports = answer["ports"]
            self.came = answer["from"]
            self.board = answer["board"]
        elif status == "gone":
            self.standing = ON_A_LINK
        elif status == "changed":
            self.board = answer["board"]
        elif status == "written" and command:
            self.board = command["put"]
        elif status in LAST:
            self.standing = ENDED


class HumanMatch:
    """A match of the Python model. Whoever plays it says what agents do, and when time
    passes."""

    def __init__(self, fixture: Fixture, rng: random.Random) -> None:
        self._engine = Rehearsal(fixture)
        self._chance = rng
        self.fixture = fixture
        self.seen = [AgentRecord() for _ in fixture.keys]

    @property
    def match(self) -> Match:
        return self._engine.match

    @property
    def is_over(self) -> bool:
        return self.match.closed

    def may_say(self, agent: int) -> bool:
        """Returns whether an agent can do something: one on a link cannot, nor one that
        has ended."""
        return not self.is_over and self.seen[agent].standing in (OUTSIDE, AT_A_NODE)

    def say(self, agent: int, command: Object) -> None:
        """Lets an agent say a command."""
        if command["do"] == "enter":
            command = {**command, "key": self.fixture.keys[agent]}
        self.seen[agent].note_command(command)
        self._take(self._engine.feed(agent, spell(command).encode()), command)

    def wait(self) -> None:
        """Lets time pass: one of the agents on links is chosen by chance, and arrives
        if it can."""
        pool = self.match.pool
        if pool and not self.is_over:
            self._take(self._engine.draw(self._chance.randrange(len(pool))))

    def deliver(self, agent: int) -> None:
        """Delivers an agent that is on a link."""
        if agent in self.match.pool and not self.is_over:
            self._take(self._engine.draw(self.match.pool.index(agent)))

    def end(self) -> Verdict:
        """Ends the match. Agents on links that were destroyed count as lost."""
        for agent in list(self.match.pool):
            if self.match.destroys(
                self.match.agents[agent].node, self.match.agents[agent].port
            ):
                self.deliver(agent)
        for number, text in self._engine.close():
            self.seen[number].note_answer(text, OVER, None)
        return judge(self.match)

    def replay(self) -> bytes:
        return self._engine.replay()

    def as_dict(self) -> Dict[str, Any]:
        """Returns what the page may show: the observations of each agent."""
        return {
            "over": self.is_over,
            "agents": [
                {
                    "standing": record.standing,
                    "ports": record.ports,
                    "came": record.came,
                    "board": record.board,
                    "lines": [list(line) for line in record.lines],
                }
                for record in self.seen
            ],
        }

    def _take(
        self, sent_lines: List[SentLine], command: Optional[Object] = None
    ) -> None:
        for number, text in sent_lines:
            self.seen[number].note_answer(text, json.loads(text), command)


def trails(match: Match) -> List[Tuple[List[int], bool]]:
    """Returns for each agent the nodes of its walk and whether it was lost. Only for
    finished matches."""
    routes: List[List[int]] = [[] for _ in match.agents]
    at = [match.setup.home] * len(match.agents)
    for event in match.log:
        if event["do"] == "enter":
            routes[event["agent"]].append(match.setup.home)
        elif event["do"] == "depart" and event["reply"] == {"ok": "gone"}:
            at[event["agent"]] = match.far[at[event["agent"]]][event["port"]][0]
        elif event["do"] == "deliver" and event["reply"] is not None:
            routes[event["agent"]].append(at[event["agent"]])
    return [(trail, agent.lost) for trail, agent in zip(routes, match.agents)]
