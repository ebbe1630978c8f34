"""A host of `arena explore`, and agents that it plays by what has happened to them."""
import functools
import json
import subprocess
import threading
from typing import Any, Callable, Dict, List, NamedTuple, Sequence, Tuple, Union

from tests.program.program_cases import SEED, TRIANGLE, writes
from tests.support.program_rows import Stage
from tests.support.servers import without_warning

FAILING = 1
WAKES = "wakes"
# a line to send, or one of the following constants
Step = Union[bytes, str]
STOPS = "stops"
SLEEPS = "sleeps"
FAILS = "fails"
# a function from the history (replies and wake-ups) to the next step
Agent = Callable[[List[str]], Step]


class Answer(NamedTuple):
    """The exit status of an exploration, what was found, what was counted, and the
    fault that ended it."""

    status: int
    found: Dict[str, Any]
    counts: Dict[str, Any]
    fault: str


def say(do: str, **extra: object) -> bytes:
    return json.dumps({"do": do, **extra}).encode()


def enter(agent: int) -> bytes:
    return say("enter", key=f"k{agent}")


def heard(news: str) -> Dict[str, Any]:
    """A reply; nothing is in a waking."""
    return {} if news == WAKES else json.loads(news)


class Host:
    """Answers the questions of one exploration. An agent holds all that has happened to
    it, or the newest things alone."""

    def __init__(self, agents: Sequence[Agent], keeps: int) -> None:
        self._agents = agents
        self._keeps = keeps
        self._numbers: Dict[Tuple[int, Tuple[str, ...]], int] = {}
        self._back: List[Tuple[int, Tuple[str, ...]]] = []

    def answer(self, question: Dict[str, Any]) -> bytes:
        if "begin" in question:
            agent = question["begin"]
            history = ()
        else:
            agent, before = self._back[question["ask"]]
            news = WAKES if "wakes" in question else json.dumps(question["hears"])
            history = (*before, news)[-self._keeps :]
        number = self._numbers.setdefault((agent, history), len(self._back))
        if number == len(self._back):
            self._back.append((agent, history))
        step = self._agents[agent](list(history))
        return (
            f"{number} {step}\n".encode()
            if isinstance(step, str)
            else f"{number} says\n".encode() + step + b"\n"
        )


def writes_team(stage: Stage, agents: int, quota: int = 200) -> None:
    """Writes a tournament of one match on the triangle, whose black hole is node 2,
    from node 0."""
    keys = ", ".join(f'"k{agent}"' for agent in range(agents))
    writes(
        stage,
        tri=TRIANGLE,
        team=SEED.replace("version = 2", "version = 3") + f'[[match]]\nteam = "red"\n'
        f'network = "tri.toml"\nhome = 0\nholes = [2]\ndark = []\nquota = {quota}\nboard = 6000\nkeys = [{keys}]\n',
    )


def explore(
    stage: Stage,
    agents: Sequence[Agent],
    *words: object,
    quota: int = 200,
    keeps: int = 1_000,
) -> Answer:
    """Explores the match of `writes_team`, which these agents play."""
    writes_team(stage, len(agents), quota)
    child = subprocess.Popen(
        [stage.program, "explore", "team.toml", "0", *map(str, words)],
        cwd=stage.folder,
        stdin=subprocess.PIPE,
        stdout=subprocess.PIPE,
        stderr=subprocess.PIPE,
    )
    assert child.stdin and child.stdout and child.stderr
    patience = threading.Timer(stage.patience, child.kill)
    patience.start()
    host = Host(agents, keeps)
    last = []
    try:
        for line in child.stdout:
            message = json.loads(line)
            if "begin" in message or "ask" in message:
                child.stdin.write(host.answer(message))
                child.stdin.flush()
            elif "visited" not in message:
                last.append(message)
        fault = without_warning(child.stderr.read()).decode().strip()
        child.wait()
    finally:
        patience.cancel()
        child.kill()
        child.communicate()
    result, counts = last if last else ({}, {})
    return Answer(child.returncode, result, counts, fault)


# Agents.


def in_turn(history: List[str], *steps: Step) -> Step:
    """Returns the step after this history; agents stop after the last one."""
    return steps[len(history)] if len(history) < len(steps) else STOPS


def solves(agent: int, history: List[str]) -> Step:
    """Enters, goes to node 1 and accuses the link to node 2: the match is solved in one
    move."""
    return in_turn(
        history, enter(agent), say("depart", port=0), STOPS, say("accuse", port=1)
    )


def races(agent: int, history: List[str]) -> Step:
    """Whoever writes first decides. If that is agent 0, it solves the match with one
    move; else it accuses a safe link at once."""
    if not history:
        return enter(agent)
    if len(history) == 1:
        return say("write", expect="", put=str(agent))
    if agent == 1:
        return say("leave") if len(history) == 2 else STOPS
    if heard(history[1])["ok"] == "changed":
        return say("accuse", port=0) if len(history) == 2 else STOPS
    return in_turn(history[2:], say("depart", port=0), STOPS, say("accuse", port=1))


def is_lost(agent: int, history: List[str]) -> Step:
    """Enters the black hole."""
    return in_turn(history, enter(agent), say("depart", port=1))


def stops(_history: List[str]) -> Step:
    return STOPS


def sleeps(_history: List[str]) -> Step:
    return SLEEPS


def fails(_history: List[str]) -> Step:
    return FAILS


def looks(_history: List[str]) -> Step:
    return say("look")


def as_agent(number: int, of: Callable[[int, List[str]], Step]) -> Agent:
    return functools.partial(of, number)


SOLVER = as_agent(0, solves)
RACE = [as_agent(0, races), as_agent(1, races)]
