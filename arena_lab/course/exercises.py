"""Exercises on the way to an agent, for the page of a hall and `arena-lab exercise`.

Each is a folder of `examples/exercises`. `exercise.toml` has a title, a text, a hint and
the matches that are played. A student completes `agent.py`; `solution.py` is right. Both
may be files of elsewhere, which `exercise.toml` names: exercises build on each other.
`check.py` has a function `check(match)`, which says what to mend in a match that was
played: a list of sentences, the likeliest cause first, and an empty one if nothing is
wrong. Perhaps it has `check_all(matches)` too, for what only all matches together show.
"""
import pathlib
from typing import Callable, Dict, Iterator, List, NamedTuple, Optional, Sequence, Tuple

from arena_lab.play.agent_files import AGENTS, load_module
from arena_lab.rules import draws, networks
from arena_lab.rules.fixtures import Fixture, fixture_of
from arena_lab.rules.limits import SMALL_BOARD, SMALL_QUOTA
from arena_lab.rules.model import GONE, Match, Object, Setup
from arena_lab.support import fields
from arena_lab.support.fields import Field, is_number, is_text

EXERCISES = AGENTS.parent / "exercises"
AGENT = "agent.py"
CLIENT = "client.py"
FILE = "exercise.toml"
COMMAND = f"python3 {AGENT} {{host}} {{port}} {{key}}"
# command of an agent that receives the number of nodes
TOLD_COMMAND = f"{COMMAND} {{nodes}}"
# of several lines
PROSE = Field(lambda value: isinstance(value, str), "a text")
FIELDS = {
    "title": fields.TEXT,
    "text": PROSE,
    "hint": PROSE,
    "agents": fields.count(1),
    "nodes": fields.FLAG,
    "agent": fields.TEXT._replace(default=AGENT),
    "solution": fields.TEXT._replace(default="solution.py"),
    "every": PROSE._replace(default=""),
    "numberings": fields.count(1)._replace(default=1),
    "match": fields.tables("match"),
}
MATCH = {
    "network": Field(is_text, 'given for each match, such as "ring:5"'),
    "scheduler": fields.TEXT._replace(default="fair"),
    "seed": Field(lambda value: isinstance(value, int), "a whole number", 0),
    "holes": Field(lambda value: isinstance(value, list), "a list of nodes", []),
    "ports": Field(lambda value: value is None or is_number(value), "a seed", None),
}


class ExerciseMatch(NamedTuple):
    """A match of an exercise, which may have no black hole. `ports` is the seed by
    which ports are numbered anew, or None."""

    network: str
    scheduler: str
    seed: int
    holes: List[int]
    ports: Optional[int]

    def __str__(self) -> str:
        ports = draws.ports_text(self.ports)
        return f"{self.network}{ports} under {self.scheduler} {self.seed}"


class Exercise(NamedTuple):
    """An exercise: its name, title, text and hint, what is played, a network of which
    every schedule is tried, or "", with how many numberings of its ports, and the paths
    of its agent and its solution."""

    name: str
    title: str
    text: str
    hint: str
    agents: int
    command: str
    matches: List[ExerciseMatch]
    every: str
    numberings: int
    paths: Tuple[str, str]

    @property
    def folder(self) -> pathlib.Path:
        return EXERCISES / self.name

    def files(self) -> Dict[str, str]:
        """Returns the start files of an exercise by name: the agent, and the kit's
        client."""
        agent = (self.folder / self.paths[0]).read_text(encoding="utf-8")
        client = (AGENTS / CLIENT).read_text(encoding="utf-8")
        return {AGENT: agent, CLIENT: client}

    def solution(self) -> str:
        return (self.folder / self.paths[1]).read_text(encoding="utf-8")

    def fixture(self, of: ExerciseMatch) -> Fixture:
        """One of its matches before it begins; its home base is node 0."""
        network = draws.renumber(networks.network_named(of.network), of.ports)
        setup = Setup(
            network.nodes,
            network.links,
            0,
            of.holes,
            self.agents,
            SMALL_QUOTA,
            SMALL_BOARD,
        )
        return fixture_of(setup, of.seed)

    def praise(self) -> str:
        """Returns the line that confirms a right answer."""
        count = len(self.matches)
        every = f", and under every schedule of {self.every}" if self.every else ""
        return (
            f"Right in {'its match' if count == 1 else f'all {count} matches'}{every}."
        )

    def is_told(self) -> bool:
        """Returns whether an agent is told the number of nodes."""
        return self.command == TOLD_COMMAND

    def check(self, match: Match) -> List[str]:
        """Runs the exercise's own check on a finished match; returns its advice."""
        module = load_module(self.folder / "check.py")
        check_match: Callable[[Match], List[str]] = module.check
        return check_match(match)

    def check_all(self, matches: Sequence[Tuple[Match, Sequence[str]]]) -> List[str]:
        """Runs the exercise's check of all its matches together, each with the keys of
        its agents, if it has one; returns its advice."""
        module = load_module(self.folder / "check.py")
        lines: List[str] = []
        if hasattr(module, "check_all"):
            lines += module.check_all(matches)
        return lines


def exercises() -> Dict[str, Exercise]:
    """All exercises by their names, in their order."""
    names = sorted(
        (path.parent.name for path in EXERCISES.glob(f"*/{FILE}")),
        key=lambda name: int(name.partition("-")[0]),
    )
    return {name: read_exercise(name) for name in names}


def read_exercise(name: str) -> Exercise:
    """The exercise of a folder."""
    text = (EXERCISES / name / FILE).read_text(encoding="utf-8")
    values = fields.values_of(fields.table_of(text), FIELDS, "an exercise")
    matches = [
        ExerciseMatch(**fields.values_of(table, MATCH, "a match"))
        for table in values["match"]
    ]
    return Exercise(
        name,
        values["title"],
        " ".join(values["text"].split()),
        " ".join(values["hint"].split()),
        values["agents"],
        TOLD_COMMAND if values["nodes"] else COMMAND,
        matches,
        values["every"],
        values["numberings"],
        (values["agent"], values["solution"]),
    )


def is_accepted(event: Object) -> bool:
    """Returns whether an event was answered, and not refused."""
    return isinstance(event.get("reply"), dict) and "no" not in event["reply"]


def is_written(event: Object) -> bool:
    """Returns whether an event is a write that changed the whiteboard."""
    return bool(event["do"] == "write" and event["reply"].get("ok") == "written")


def events_of(match: Match, do: str, agent: Optional[int] = None) -> List[Object]:
    """Returns the accepted events of one kind, from one agent or from all."""
    return [
        event
        for event in match.log
        if event["do"] == do
        and agent in (None, event.get("agent"))
        and is_accepted(event)
    ]


def placed_events(match: Match) -> Iterator[Tuple[Object, int]]:
    """Yields the accepted events in order, each with its agent's node: the node that a
    departure leaves, and the node that an arrival reaches."""
    places = [match.setup.home] * match.setup.agents
    ports = [0] * match.setup.agents
    for event in filter(is_accepted, match.log):
        agent = event["agent"]
        if event["do"] == "deliver":
            places[agent] = match.far[places[agent]][ports[agent]][0]
        yield event, places[agent]
        if event["reply"] == GONE:
            ports[agent] = event["port"]


def accusations(match: Match) -> List[str]:
    """Returns what is said of agents that accuse where nobody is asked to."""
    return [
        f"agent {event['agent']} accused a link, and nothing here is about a black hole: agent.leave() ends an agent"
        for event in events_of(match, "accuse")[:1]
    ]


def board_at_home(match: Match) -> str:
    """Returns the final text on the whiteboard of the home base."""
    return str(match.boards[match.setup.home])
