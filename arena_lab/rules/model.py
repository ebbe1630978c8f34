"""The rules of a match in Python, after docs/MODEL.md and apart from the proved code,
to try agents without a build.

Nothing is proved of it, and no result of a contest rests on it. Commands are the
objects that clients send, replies those that they are sent, and a match's log is a list
of the objects that stand in a replay.
"""
import json
from typing import (
    Any,
    Container,
    Dict,
    List,
    NamedTuple,
    Optional,
    Sequence,
    Set,
    Tuple,
)

from arena_lab.rules.limits import MAX_LINE, is_small

Object = Dict[str, Any]
Place = Tuple[int, int]

BAD: Object = {"do": "bad"}
OVER: Object = {"ok": "over"}
GONE: Object = {"ok": "gone"}
BYE: Object = {"ok": "bye"}
NOTED: Object = {"ok": "noted"}
OUTSIDE = "outside"
PRESENT = "present"
AWAY = "away"
ENDED = "ended"
# what each command names
SHAPES: Dict[str, Dict[str, type]] = {
    "enter": {"key": str},
    "look": {},
    "write": {"expect": str, "put": str},
    "depart": {"port": int},
    "accuse": {"port": int},
    "leave": {},
}
# replies after which the connection ends
LAST = (BYE, NOTED, OVER)
# a line of more bytes is read as a bad command, and so is one with objects and lists as
# deep as this
TOO_DEEP = 128
# a number of more digits is read as a fraction is
LONG_DIGITS = 20

ENCODER = json.JSONEncoder(sort_keys=True, separators=(",", ":"), ensure_ascii=False)


def spell(value: Any) -> str:
    """JSON as the arena spells it: keys in order, no spaces, characters past ASCII as
    they are."""
    return ENCODER.encode(value)


def text_of(line: bytes) -> str:
    """Decodes a line; returns "" for overlong lines and invalid UTF-8, since no command
    is empty."""
    try:
        return line.decode("utf-8") if len(line) <= MAX_LINE else ""
    except UnicodeDecodeError:
        return ""


def depth(value: Any) -> int:
    """How deep the objects and lists of a value stand in each other."""
    if isinstance(value, (dict, list)):
        return 1 + max(
            map(depth, value.values() if isinstance(value, dict) else value), default=0
        )
    return 0


def finite(digits: str) -> float:
    value = float(digits)
    if value in (float("inf"), float("-inf")):
        raise ValueError("too large a number")
    return value


def refused_constant(name: str) -> None:
    raise ValueError(f"{name} is no JSON")


def whole(digits: str) -> Any:
    return (
        int(digits) if len(digits) < LONG_DIGITS and digits != "-0" else finite(digits)
    )


DECODER = json.JSONDecoder(
    parse_int=whole, parse_float=finite, parse_constant=refused_constant
)


def value_of(line: str) -> Any:
    """The JSON value of a line, by the arena's rules: -0 is no whole number, NaN and
    Infinity are nothing, and half a surrogate pair is no text."""
    value = DECODER.decode(line)
    if "\\" in line:
        spell(value).encode()
    if line.count("[") + line.count("{") >= TOO_DEEP and depth(value) >= TOO_DEEP:
        raise ValueError("too deep")
    return value


def command_of(line: str) -> Object:
    """The command that a client's line is."""
    try:
        value = value_of(line)
    except (ValueError, RecursionError):
        return BAD
    do = value.get("do") if isinstance(value, dict) else None
    shape = SHAPES.get(do) if isinstance(do, str) else None
    if shape is None or any(
        type(value.get(name)) is not kind for name, kind in shape.items()
    ):
        return BAD
    if "port" in shape and not 0 <= value["port"] <= 65_535:
        return BAD
    return {"do": do, **{name: value[name] for name in shape}}


def denial(
    command: Object, keys: Container[str], keys_used: Container[str]
) -> Optional[Object]:
    """Returns the denial of a connection's first command, or None if the agent may
    enter."""
    if command["do"] != "enter":
        return {"no": "enter"}
    if command["key"] not in keys:
        return {"no": "key"}
    return {"no": "taken"} if command["key"] in keys_used else None


class Setup(NamedTuple):
    """A match before it begins. Each link is (node, port, node, port), each dark link
    (node, port) of either end."""

    nodes: int
    links: List[Tuple[int, int, int, int]]
    home: int
    holes: List[int]
    agents: int
    quota: int
    board: int
    dark: List[Place] = []


class AgentState:
    """Position and usage of one agent."""

    def __init__(self) -> None:
        self.standing = OUTSIDE
        self.used = 0
        self.node = 0
        self.port = 0
        self.came: Optional[int] = None
        self.lost = False


class Match:
    """A match in the Python model: it executes commands, delivers agents on links, and
    is closed at the end."""

    def __init__(self, setup: Setup) -> None:
        self.setup = setup
        self.far: List[Dict[int, Place]] = [{} for _ in range(setup.nodes)]
        for v, p, w, q in setup.links:
            self.far[v][p] = (w, q)
            self.far[w][q] = (v, p)
        self.dark = {
            link_end for v, p in setup.dark for link_end in ((v, p), self.far[v][p])
        }
        self.boards = [""] * setup.nodes
        self.agents = [AgentState() for _ in range(setup.agents)]
        self.pool: List[int] = []
        self.closed = False
        self.log: List[Object] = []
        self.accused: List[Place] = []
        self.reached: Set[int] = set()

    def set_alone(self, number: int, agent: AgentState, board: str) -> None:
        """Sets the match to one agent, with this text on the whiteboard at its node, as
        if nothing had happened yet."""
        self.agents[number] = agent
        self.boards[agent.node] = board
        self.pool = [number] if agent.standing == AWAY else []
        self.log = []
        self.accused = []
        self.reached = set()
        self.closed = False

    def _here(self, agent: AgentState) -> Object:
        board = self.boards[agent.node]
        return {
            "ok": "here",
            "ports": len(self.far[agent.node]),
            "from": agent.came,
            "board": board,
        }

    def _refusal(self, agent: AgentState, do: str) -> Optional[str]:
        """Returns why a command is rejected, or None."""
        if agent.standing == OUTSIDE:
            return None if do == "enter" else "outside"
        if do == "enter":
            return "twice"
        if agent.standing == ENDED:
            return "ended"
        return "spent" if agent.used == self.setup.quota and do != "leave" else None

    def reply_to(self, number: int, command: Object) -> Object:
        """The reply to a command, which stands in the log if it is heard."""
        agent = self.agents[number]
        if self.closed:
            return OVER
        why = self._refusal(agent, command["do"])
        if why:
            return {"no": why}
        if command["do"] not in ("enter", "leave"):
            agent.used += 1
        reply = self._heard(number, agent, command)
        self.log.append(
            {
                "agent": number,
                "reply": reply,
                **{k: v for k, v in command.items() if k != "key"},
            }
        )
        return reply

    def _heard(self, number: int, agent: AgentState, command: Object) -> Object:
        do = command["do"]
        if do == "enter":
            agent.standing = PRESENT
            agent.node = self.setup.home
            return self._here(agent)
        if do == "leave":
            if agent.standing == AWAY:
                self.pool.remove(number)
            agent.standing = ENDED
            return BYE
        if agent.standing == AWAY:
            return {"no": "away"}
        if do == "bad":
            return {"no": "line"}
        if do == "look":
            return self._here(agent)
        if do == "write":
            return self._write(agent.node, command["expect"], command["put"])
        if command["port"] not in self.far[agent.node]:
            return {"no": "port"}
        agent.port = command["port"]
        if do == "accuse":
            agent.standing = ENDED
            self.accused.append((agent.node, agent.port))
            return NOTED
        agent.standing = AWAY
        self.pool.append(number)
        return GONE

    def _write(self, node: int, expect: str, text: str) -> Object:
        if len(text.encode()) > self.setup.board:
            return {"no": "long"}
        if self.boards[node] != expect:
            return {"ok": "changed", "board": self.boards[node]}
        self.boards[node] = text
        return {"ok": "written"}

    def destroys(self, node: int, port: int) -> bool:
        """Returns whether an agent that departs by this port is destroyed."""
        return (node, port) in self.dark or self.far[node][port][0] in self.setup.holes

    def deliver(self, number: int) -> Optional[Object]:
        """Delivers an agent, and returns the reply, or None if it is destroyed or the
        match is closed."""
        agent = self.agents[number]
        if self.closed or agent.standing != AWAY:
            return None
        if self.destroys(agent.node, agent.port):
            if not agent.lost:
                self.log.append({"agent": number, "do": "deliver", "reply": None})
            agent.lost = True
            return None
        self.pool.remove(number)
        agent.standing = PRESENT
        agent.node, agent.came = self.far[agent.node][agent.port]
        self.reached.add(agent.node)
        reply = self._here(agent)
        self.log.append({"agent": number, "do": "deliver", "reply": reply})
        return reply

    def close(self) -> None:
        if not self.closed:
            self.log.append({"do": "close", "reply": None})
        self.closed = True

    def play(self, event: Object) -> None:
        """Plays an event of a replay anew, whatever its reply is there."""
        if event["do"] == "close":
            self.close()
        elif event["do"] == "deliver":
            self.deliver(event["agent"])
        else:
            self.reply_to(
                event["agent"],
                {name: event[name] for name in event if name not in ("agent", "reply")},
            )

    def head(self) -> Object:
        """The head of the match's replay."""
        setup = self.setup
        links = [[v, p, w, q] if v < w else [w, q, v, p] for v, p, w, q in setup.links]
        dark = [min([v, p], list(self.far[v][p])) for v, p in setup.dark]
        version = 2 if is_small(setup.nodes, setup.quota, setup.board) else 3
        return {
            "replay": version,
            "agents": setup.agents,
            "board": setup.board,
            "quota": setup.quota,
            "home": setup.home,
            "holes": sorted(setup.holes),
            "dark": sorted(dark),
            "nodes": setup.nodes,
            "links": sorted(links),
        }

    def replay(self) -> str:
        """The text of the match's replay."""
        lines = [self.head(), *self.log, {"end": len(self.log)}]
        return "".join(spell(line) + "\n" for line in lines)


def objects_of(text: str) -> List[Object]:
    """The head and the events of a replay."""
    return [json.loads(line) for line in text.split("\n")[:-2]]


def begin_match(head: Object) -> Match:
    """The match of a replay's head, before anything happens in it."""
    return Match(
        Setup(
            head["nodes"],
            list(map(link_of, head["links"])),
            head["home"],
            head["holes"],
            head["agents"],
            head["quota"],
            head["board"],
            list(map(place_of, head["dark"])),
        )
    )


def link_of(values: Sequence[int]) -> Tuple[int, int, int, int]:
    """Parses a link from four numbers."""
    v, p, w, q = values
    return v, p, w, q


def place_of(values: Sequence[int]) -> Place:
    """Parses a node and a port from two numbers."""
    v, p = values
    return v, p


def replay_match(text: str) -> Match:
    """Replays a text and returns its match. The text is a valid replay if and only if
    the match's own replay equals it."""
    head, *events = objects_of(text)
    match = begin_match(head)
    for event in events:
        match.play(event)
    return match


class Verdict(NamedTuple):
    """The verdict on a match: outcome as `judge` prints it, moves, and lost agents."""

    outcome: str
    moves: int
    lost: int

    def __str__(self) -> str:
        """As the program prints it."""
        return f"{self.outcome} moves {self.moves} lost {self.lost}"

    @property
    def kind(self) -> str:
        """The outcome, without the node of a guess."""
        return self.outcome.partition(" ")[0]

    @property
    def is_solved(self) -> bool:
        return self.outcome == SOLVED


# what a match may come to, best first, as the arena's table ranks it
RANKS = SOLVED, GUESS, UNFINISHED, SILENT, WRONG = (
    "solved",
    "guess",
    "unfinished",
    "silent",
    "wrong",
)


def rank(verdict: Verdict, team: str) -> Tuple[int, int, int, str]:
    """Sort key of the table: outcome, then fewer moves, fewer lost agents, and the
    team's name."""
    return RANKS.index(verdict.kind), verdict.moves, verdict.lost, team


def judge(match: Match) -> Verdict:
    """The verdict on a match that has ended."""
    moves = sum(
        event["do"] == "depart" and event["reply"] == GONE for event in match.log
    )
    return Verdict(outcome_of(match), moves, sum(agent.lost for agent in match.agents))


def outcome_of(match: Match) -> str:
    """The first rule that holds."""
    setup = match.setup
    accusations = match.accused
    if any(not match.destroys(v, p) for v, p in accusations):
        return "wrong"
    links = set(accusations) | {match.far[v][p] for v, p in accusations}
    holes_accused = {match.far[v][p][0] for v, p in accusations}
    if (
        not accusations
        or not holes_accused.issuperset(setup.holes)
        or not links.issuperset(match.dark)
    ):
        return "silent"
    if any(agent.standing == PRESENT for agent in match.agents):
        return "unfinished"
    spared_nodes = match.reached | {setup.home, *setup.holes}
    missing_nodes = [v for v in range(setup.nodes) if v not in spared_nodes]
    if missing_nodes and any(link_end not in match.dark for link_end in accusations):
        return f"guess {missing_nodes[0]}"
    return "solved"
