"""Schedules in files: a head, which is a line of JSON, and then one choice a line.

    {"agents":[..],"files":{..},"fixture":{..},"lab":"1","limit":5,"origin":"fair 3 on ring:8","schedule":1}
    answer 0
    answer 1
    arrive 0

The head names the match, the agents with the SHA-256 of their files, how many seconds
each may take, and how the schedule was found. `answer I` takes a line of agent I, or
the end of its input; `arrive I` lets it arrive, or be destroyed; `wake I` wakes it.
Empty lines and lines that begin with `#` are skipped. The match is closed at the end of
the file.
"""
import json
import pathlib
import re
from typing import Dict, List, NamedTuple

from arena_lab import VERSION
from arena_lab.play.bounds import LIMIT
from arena_lab.play.schedulers import ANSWER, ARRIVE, WAKE, Choice
from arena_lab.play.teams import INSIDE, OUTSIDE, AgentWords, digests_of
from arena_lab.rules.fixtures import OWN_TEAM, Fixture, MatchError, check_setup, pairs
from arena_lab.rules.model import Object, Setup, link_of, place_of, spell
from arena_lab.support.faults import ArenaError

# an agent's number, as a schedule writes it
AGENT = "0|[1-9][0-9]*"


class ScheduleError(ArenaError):
    """A file is no schedule; says which line."""


class Schedule(NamedTuple):
    """A recorded match: fixture, agents, origin, choices, and the seconds that an agent
    may compute."""

    fixture: Fixture
    agents: List[AgentWords]
    origin: str
    choices: List[Choice]
    files: Dict[str, str]
    limit: float = LIMIT

    def title(self) -> str:
        """Returns the title of its page: team or agents, and origin."""
        names = ", ".join(dict.fromkeys(agent.name() for agent in self.agents))
        return f"{names if self.fixture.team == OWN_TEAM else self.fixture.team}: {self.origin}"


def schedule_of(
    fixture: Fixture,
    agents: List[AgentWords],
    origin: str,
    choices: List[Choice],
    limit: float = LIMIT,
) -> Schedule:
    return Schedule(fixture, agents, origin, choices, digests_of(agents), limit)


def text_of(schedule: Schedule) -> str:
    """The schedule's file."""
    fixture = schedule.fixture
    setup = {name: value for name, value in fixture.setup._asdict().items()}
    limit = int(schedule.limit) if schedule.limit % 1 == 0 else schedule.limit
    head: Object = {
        "agents": [f"{agent.kind} {agent.words}" for agent in schedule.agents],
        "files": schedule.files,
        "fixture": {
            "team": fixture.team,
            "keys": fixture.keys,
            "held": pairs(fixture.held),
            "naps": fixture.naps,
            **setup,
        },
        "lab": VERSION,
        "limit": limit,
        "origin": schedule.origin,
        "schedule": 1,
    }
    return "".join(
        [
            spell(head) + "\n",
            *(f"{choice.do} {choice.agent}\n" for choice in schedule.choices),
        ]
    )


def read_schedule(path: pathlib.Path) -> Schedule:
    """The schedule in a file."""
    lines = path.read_text(encoding="utf-8").split("\n")
    try:
        head = json.loads(lines[0])
        fixture_values = dict(head["fixture"])
        team, keys, held_links = (
            fixture_values.pop(name) for name in ("team", "keys", "held")
        )
        fixture_values.update(
            links=list(map(link_of, fixture_values["links"])),
            dark=list(map(place_of, fixture_values["dark"])),
        )
        naps = fixture_values.pop("naps", 0)
        fixture = Fixture(
            team,
            check_setup(Setup(**fixture_values)),
            keys,
            list(map(place_of, held_links)),
            naps,
        )
        agents = [agent_of(line) for line in head["agents"]]
        if not len(agents) == len(keys) == fixture.setup.agents:
            raise ScheduleError(
                f"{path}: its head names {len(agents)} agents and {len(keys)} keys, and the match has "
                f"{fixture.setup.agents} agents"
            )
        # schedules of earlier versions have no limit
        limit = seconds_of(head.get("limit", LIMIT))
        return Schedule(
            fixture,
            agents,
            head["origin"],
            choices_of(path, lines[1:]),
            head["files"],
            limit,
        )
    except MatchError as fault:
        raise ScheduleError(f"{path}: its head names no match: {fault}") from None
    except (KeyError, TypeError, ValueError, AttributeError):
        raise ScheduleError(
            f"{path}: its first line is no head of a schedule"
        ) from None


def seconds_of(value: object) -> float:
    """Returns how many seconds an agent may take, as the head has them."""
    if (
        isinstance(value, bool)
        or not isinstance(value, (int, float))
        or not 0 < value < float("inf")
    ):
        raise ValueError(value)
    return value


def agent_of(line: str) -> AgentWords:
    """An agent, as the head names it."""
    kind, words = line.split(" ", 1)
    if kind not in (INSIDE, OUTSIDE):
        raise ValueError(line)
    return AgentWords(kind, words)


def choices_of(path: pathlib.Path, lines: List[str]) -> List[Choice]:
    """The choices of a file, whose first line is the head."""
    choices = []
    for number, line in enumerate(lines, 2):
        if not line.strip() or line.startswith("#"):
            continue
        do, _, agent = line.strip().partition(" ")
        if do not in (ANSWER, ARRIVE, WAKE) or not re.fullmatch(AGENT, agent):
            raise ScheduleError(f"{path}: line {number} is no choice, as `arrive 0` is")
        choices.append(Choice(do, int(agent)))
    return choices
