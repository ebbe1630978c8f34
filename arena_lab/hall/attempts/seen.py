"""Computes what a team may see of a running match: the messages to its agents, and
nothing else.

The part of a replay has more than that: its head has the black holes, and a line says
which agent is destroyed. Both are left out here, and what is shown does not depend on
them. So two matches that no agent can tell apart look alike, byte for byte: an agent
that is destroyed looks like one whose link is slow.
"""
import collections
import functools
import json
import pathlib
import threading
from typing import Any, Deque, Dict, List, NamedTuple, Optional

from arena_lab.hall import packing

# of each agent the last lines, and of each text its beginning
LINES = 12
TEXT = 200
MATCHES = 300


class Agent:
    """An agent's number of commands, and the last lines that it received."""

    def __init__(self) -> None:
        self.commands = 0
        self.lines: Deque[Dict[str, Any]] = collections.deque(maxlen=LINES)

    def as_dict(self, number: int) -> Dict[str, Any]:
        return {
            "agent": number,
            "entered": self.commands > 0,
            "commands": self.commands,
            "lines": list(self.lines),
        }


class Part:
    """Follows the part file of a replay, from which it collects the messages to agents;
    each call reads only new lines."""

    def __init__(self, path: pathlib.Path, agents: int) -> None:
        self._path = path
        self._read = 0
        self._rest = b""
        self._has_head = False
        self._agents = [Agent() for _ in range(agents)]
        self._lock = threading.Lock()

    def _new(self) -> List[Dict[str, Any]]:
        """The events that stand there whole and were not read yet; none if the match is
        closed."""
        try:
            with self._path.open("rb") as file:
                file.seek(self._read)
                new = file.read()
        except FileNotFoundError:
            return []
        self._read += len(new)
        *lines, self._rest = (self._rest + new).split(b"\n")
        events = lines if self._has_head else lines[1:]
        self._has_head = self._has_head or bool(lines)
        return [json.loads(line) for line in events]

    def as_list(self) -> List[Dict[str, Any]]:
        with self._lock:
            for event in self._new():
                self.take(event)
            return [agent.as_dict(number) for number, agent in enumerate(self._agents)]

    def take(self, event: Dict[str, Any]) -> None:
        """Counts an event, unless no agent receives it."""
        is_told = "agent" in event and event.get("reply") is not None
        if is_told and event["agent"] < len(self._agents):
            agent = self._agents[event["agent"]]
            agent.commands += event["do"] != "deliver"
            agent.lines.append(
                shorten(
                    {name: value for name, value in event.items() if name != "agent"}
                )
            )


def shorten(value: Any) -> Any:
    """A value whose long texts are cut."""
    if isinstance(value, dict):
        return {name: shorten(value) for name, value in value.items()}
    return value[:TEXT] + "…" if isinstance(value, str) and len(value) > TEXT else value


# the parts that were looked at last
part = functools.lru_cache(maxsize=MATCHES)(Part)

# what a refusal means; the line itself is in no replay
MEANINGS = {
    "line": "the line was no command: `arena-lab check` shows such a line and the likeliest mistake",
    "port": "the node has no such port: ports are 0 to `ports` - 1",
    "long": "the text is longer than a whiteboard holds",
    "spent": "all commands of the agent are used up",
}


class MatchEnd(NamedTuple):
    """The details of a closed match besides its verdict: rejected lines, lost agents
    with their places, and black holes."""

    refused: List[Dict[str, Any]]
    lost: List[Dict[str, int]]
    holes: List[int]


def match_end(replay: pathlib.Path) -> Optional[MatchEnd]:
    """Reads the end of a match from its replay; returns None without a replay."""
    try:
        return kept_ended(replay, packing.packed_path(replay).stat().st_mtime_ns)
    except FileNotFoundError:
        return None


@functools.lru_cache(maxsize=MATCHES)
def kept_ended(replay: pathlib.Path, mtime: int) -> MatchEnd:
    """Reads the end of a match, cached by the replay's modification time, because
    replays may be long and are requested often."""
    return read_ended(replay)


def read_ended(replay: pathlib.Path) -> MatchEnd:
    """Reads the end of a match from its replay, with the first fifty rejected lines."""
    refusals: List[Dict[str, Any]] = []
    lost: List[Dict[str, int]] = []
    departures: Dict[int, int] = {}
    with packing.open_packed(replay) as lines:
        holes = json.loads(next(lines)).get("holes", [])
        for index, line in enumerate(lines):
            event = json.loads(line)
            reply = event.get("reply")
            if event.get("do") == "depart":
                departures[event["agent"]] = event["port"]
            if event.get("do") == "deliver" and reply is None:
                lost.append(
                    {
                        "agent": event["agent"],
                        "port": departures.get(event["agent"], 0),
                        "event": index + 1,
                    }
                )
            if isinstance(reply, dict) and "no" in reply and len(refusals) < 50:
                refusals.append(
                    shorten(
                        {
                            "event": index + 1,
                            **event,
                            "meaning": MEANINGS.get(reply["no"], ""),
                        }
                    )
                )
    return MatchEnd(refusals, lost, holes)
