"""Replays of agents that run drawn modules, and what `arena attest` must say of them,
found by node's own WebAssembly and the rules in Python alone."""
import contextlib
import hashlib
import json
import pathlib
import random
import subprocess
from typing import (
    Any,
    Dict,
    Iterator,
    List,
    NamedTuple,
    Optional,
    Sequence,
    Tuple,
    Union,
)

from arena_lab.rules.model import (
    AWAY,
    OUTSIDE,
    PRESENT,
    Match,
    Object,
    begin_match,
    spell,
)
from tests.support.wasm_encoding import I32, Function, constant, module

STEPS = pathlib.Path(__file__).with_name("module_steps.js")
WOKE = "woke"
# a reply, or WOKE
Observation = Union[Object, str]
CALL = b"\x10"
DROP = b"\x1a"
IF_SO = b"\x04\x40"
END = b"\x0b"
IMPORTS = (
    "enter",
    "look",
    "write",
    "depart",
    "accuse",
    "leave",
    "sleep",
    "board",
    "came",
)
# the texts that drawn modules write, and where they stand in memory; the whiteboard is
# copied behind them
TEXTS = b"abb"
BOARD = 64
# how many turns a drawn match has, and how often its agents wake if they sleep
TURNS = 40
WAKES = 0.7
# how often the command of another program stands in a bent replay
BENDS = 0.06


class ModulePlayer(NamedTuple):
    """The module that an agent runs, and its arguments."""

    file: pathlib.Path
    numbers: Tuple[int, ...]

    @property
    def word(self) -> str:
        """The word of the option --module."""
        numbers = ",".join(map(str, self.numbers))
        return f"{self.file}:{numbers}" if numbers else str(self.file)


class Stepper:
    """Node, which is asked for the next step of an agent after a history."""

    def __init__(self, process: "subprocess.Popen[str]") -> None:
        self.process = process
        self.steps: Dict[str, Object] = {}

    def forget(self) -> None:
        """Forgets all steps, and lets node read each file again."""
        self.steps.clear()
        assert self.process.stdin
        self.process.stdin.write("null\n")

    def step(self, player: ModulePlayer, history: Sequence[Observation]) -> Object:
        """Returns a command as it stands in a replay, or {"do": "sleep"}, {"do":
        "stop"} or {"do": "fail"}."""
        question = json.dumps(
            {
                "file": str(player.file),
                "arguments": player.numbers,
                "history": history,
            }
        )
        if question not in self.steps:
            assert self.process.stdin and self.process.stdout
            self.process.stdin.write(question + "\n")
            self.process.stdin.flush()
            self.steps[question] = json.loads(self.process.stdout.readline())
        return self.steps[question]


@contextlib.contextmanager
def node_stepper() -> Iterator[Stepper]:
    """Starts node, and ends it."""
    with subprocess.Popen(
        ["node", str(STEPS)], stdin=subprocess.PIPE, stdout=subprocess.PIPE, text=True
    ) as process:
        yield Stepper(process)
        assert process.stdin
        process.stdin.close()


# ---- drawn modules


def call(name: str, *numbers: int) -> bytes:
    """Calls a command with these numbers, and drops its result."""
    operands = b"".join(constant(I32, number) for number in numbers)
    return operands + CALL + bytes([IMPORTS.index(name)]) + DROP


def drawn_call(rng: random.Random) -> bytes:
    """A command by chance; some are refused by a server, or break a rule."""
    text = rng.choice(((0, 0), (0, 1), (1, 2)))
    return rng.choice(
        (
            call("look"),
            call("sleep"),
            3 * call("sleep"),
            call("enter"),
            call("depart", rng.randrange(3)),
            call("depart", rng.randrange(2)),
            call("write", 0, 0, *text),
            call("write", *text, 0, 1),
            call("accuse", rng.choice((0, 1, 1, 70_000))),
            rng.choice((call("leave"), call("write", 0, 1, 0, 99))),
        )
    )


def drawn_branch(rng: random.Random) -> bytes:
    """Some commands that are said only if the whiteboard shows a text, or if the agent
    came by port 1."""
    board = (
        constant(I32, BOARD) + constant(I32, 8) + CALL + bytes([IMPORTS.index("board")])
    )
    test = rng.choice((board, CALL + bytes([IMPORTS.index("came")])))
    return test + IF_SO + drawn_commands(rng, rng.randrange(1, 3)) + END


def drawn_commands(rng: random.Random, count: int) -> bytes:
    return b"".join(drawn_call(rng) for _ in range(count))


def drawn_agent(rng: random.Random) -> bytes:
    """A module that enters, and then says commands by chance."""
    body = call("enter") if rng.random() < 0.9 else call("sleep") + call("enter")
    for _ in range(rng.randrange(2, 10)):
        body += drawn_branch(rng) if rng.random() < 0.3 else drawn_call(rng)
    run = Function([], [], body, "run")
    return module([run], IMPORTS, data=TEXTS, exports_memory=True)


# ---- drawn matches


def drawn_command(rng: random.Random) -> Object:
    """A command that any program may say."""
    return rng.choice(
        (
            {"do": "look"},
            {"do": "bad"},
            {"do": "depart", "port": rng.randrange(3)},
            {"do": "write", "expect": "", "put": rng.choice(("a", "c"))},
        )
    )


class DrawnMatch:
    """A match of modules, whose scheduler draws the agents at random."""

    def __init__(
        self, match: Match, players: Sequence[ModulePlayer], stepper: Stepper
    ) -> None:
        self.match = match
        self.players = players
        self.stepper = stepper
        self.histories: List[List[Observation]] = [[] for _ in players]

    def turn(self, agent: int, rng: random.Random, bends: float) -> None:
        state = self.match.agents[agent]
        history = self.histories[agent]
        if state.standing == AWAY:
            reply = self.match.deliver(agent)
            if reply:
                history.append(reply)
            return
        step = self.stepper.step(self.players[agent], history)
        if rng.random() < bends:
            step = drawn_command(rng)
        if step["do"] == "sleep" and rng.random() < WAKES:
            history.append(WOKE)
        if step["do"] not in ("sleep", "stop", "fail"):
            history.append(self.match.reply_to(agent, step))

    def play(self, rng: random.Random, is_bent: bool) -> None:
        """Plays until the drawn close."""
        for _ in range(rng.randrange(TURNS)):
            self.turn(rng.randrange(len(self.players)), rng, BENDS if is_bent else 0)
        self.match.close()


# ---- what the program must say


class WakeUpCount:
    """The wake-ups of an agent: in all, in a row now, and in a row at most. The row
    starts anew when the agent departs. If a reply shows another text than the reply
    before it, the row is what came since that reply."""

    def __init__(self) -> None:
        self.total = self.row = self.longest = self.since_reply = 0
        self.shown: Optional[str] = None

    def wake(self) -> None:
        self.total += 1
        self.row += 1
        self.since_reply += 1
        self.longest = max(self.longest, self.row)

    def hear(self, reply: Object) -> None:
        text = reply.get("board")
        if reply.get("ok") == "gone":
            self.row = 0
        elif text is not None and self.shown is not None and text != self.shown:
            self.row = self.since_reply
            self.longest = max(self.longest, self.row)
        self.shown = text
        self.since_reply = 0


class DiffersError(Exception):
    """The log has another event than the module's next step."""

    def __init__(self, index: int, step: Object) -> None:
        super().__init__(index, step)
        self.index = index
        self.step = step


class Comparison:
    """An agent that is compared with the log of its match."""

    def __init__(
        self, head: Object, agent: int, player: ModulePlayer, limit: int
    ) -> None:
        self.match = begin_match(head)
        self.agent = agent
        self.player = player
        self.limit = limit
        self.history: List[Observation] = []
        self.count = WakeUpCount()

    def hear(self, reply: Object) -> None:
        self.history.append(reply)
        self.count.hear(reply)

    def speak(self, stepper: Stepper, index: int, event: Object) -> None:
        """Lets the agent wake, and hear refusals, until it says the event's command."""
        command = {k: v for k, v in event.items() if k not in ("agent", "reply")}
        while True:
            step = stepper.step(self.player, self.history)
            state = self.match.agents[self.agent]
            if state.standing not in (OUTSIDE, PRESENT):
                raise DiffersError(index, step)
            if step["do"] == "sleep" and self.count.row <= self.limit:
                self.history.append(WOKE)
                self.count.wake()
                continue
            if step == command:
                return self.hear(self.match.reply_to(self.agent, step))
            if step["do"] in ("sleep", "stop", "fail"):
                raise DiffersError(index, step)
            size = len(self.match.log)
            reply = self.match.reply_to(self.agent, step)
            if len(self.match.log) > size:
                raise DiffersError(index, step)
            self.hear(reply)

    def follow(self, stepper: Stepper, log: Sequence[Object]) -> None:
        for index, event in enumerate(log):
            if event.get("agent") != self.agent:
                self.match.play(event)
            elif event["do"] == "deliver":
                reply = self.match.deliver(self.agent)
                if reply:
                    self.hear(reply)
            else:
                self.speak(stepper, index, event)

    def outcome(self, stepper: Stepper, log: Sequence[Object]) -> Object:
        """What the agent's line says behind its number."""
        try:
            self.follow(stepper, log)
        except DiffersError as difference:
            return self.difference(difference.index, difference.step)
        return {"wake_ups": self.count.total, "in_a_row": self.count.longest}

    def difference(self, index: int, step: Object) -> Object:
        if step["do"] in ("sleep", "stop", "fail"):
            return {"event": index, "step": step["do"] + "s"}
        command = {**step, "agent": self.agent, "reply": None}
        return {
            "event": index,
            "step": "says",
            "says": json.loads(spell(command)),
        }


def expected_lines(
    stepper: Stepper, match: Match, players: Sequence[ModulePlayer], limit: int
) -> str:
    """Returns what `arena attest` must print of a closed match."""
    lines: List[Dict[str, Any]] = []
    for agent, player in enumerate(players):
        outcome = Comparison(match.head(), agent, player, limit).outcome(
            stepper, match.log[:-1]
        )
        digest = hashlib.sha256(player.file.read_bytes()).hexdigest()
        front = {"module": digest, "arguments": [*player.numbers], "agent": agent}
        lines.append({**front, **outcome})
        if "event" in outcome:
            break
    is_attested = "event" not in lines[-1]
    lines.append(
        {"attested": is_attested, "agents": len(players), "spurious_wakeups": limit}
    )
    return "".join(json.dumps(line, separators=(",", ":")) + "\n" for line in lines)
