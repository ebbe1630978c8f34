"""Computes the verdict on a replay and each agent's causal past, by the proved program
or by the Python model, which has no proof."""
import pathlib
import subprocess
import tempfile
from typing import Dict, Iterable, Iterator, List, NamedTuple, Optional, Set

from arena_lab.rules import model
from arena_lab.rules.engines import EngineRefusedError, program_verdict
from arena_lab.rules.model import AWAY, PRESENT, Match, Object, Verdict

# the status of the program for a replay that is refused
REFUSED_STATUS = 3


class Footprint(NamedTuple):
    """What connects an event to others: its agent, the node that it reads, and the node
    that it writes (also by a failed write)."""

    who: Optional[int]
    seen: Optional[int]
    written: Optional[int]


def verdict_of(program: Optional[str], replay: pathlib.Path) -> Verdict:
    """The verdict on a replay."""
    return (
        program_verdict(program, replay) if program else model.judge(match_in(replay))
    )


def pasts_of(
    program: Optional[str], replay: pathlib.Path, agents: Iterable[int]
) -> Dict[int, Iterable[int]]:
    """The places of the causal past of each of these agents."""
    if program:
        return {
            agent: (
                int(line.partition(" ")[0])
                for line in lines_of(program, "explain", str(replay), str(agent))
            )
            for agent in agents
        }
    events = footprints(match_in(replay))
    return {agent: cut(agent, events) for agent in agents}


def lines_of(program: str, *words: str) -> Iterator[str]:
    """Runs the program with these arguments, and yields its output lines."""
    with tempfile.TemporaryFile() as errors:
        with subprocess.Popen(
            [program, *words], stdout=subprocess.PIPE, stderr=errors
        ) as process:
            yield from (line.decode() for line in process.stdout or ())
        if process.returncode != 0:
            errors.seek(0)
            raise EngineRefusedError(
                errors.read().decode(errors="replace").strip(), process.returncode
            )


def match_in(replay: pathlib.Path) -> Match:
    """Replays a match in the model. Raises an error if the text is not a valid
    replay."""
    text = replay.read_text(encoding="utf-8")
    try:
        match = model.replay_match(text)
    except (ArithmeticError, AttributeError, LookupError, TypeError, ValueError):
        match = None
    if match is None or match.replay() != text or not match.closed:
        raise EngineRefusedError(
            f"{replay}: this is no replay of a match by the rules, as the Python model plays them",
            REFUSED_STATUS,
        )
    return match


def footprints(match: Match) -> List[Footprint]:
    """The footprint of each event of a match."""
    again = Match(match.setup)
    return [footprint(again, event) for event in match.log]


def footprint(match: Match, event: Object) -> Footprint:
    """The footprint of the next event of a match, which is then played."""
    do = event["do"]
    if do == "close":
        match.play(event)
        return Footprint(None, None, None)
    who: int = event["agent"]
    agent = match.agents[who]
    was_there = agent.standing == PRESENT
    match.play(event)
    sees = (
        do == "enter"
        or do == "deliver"
        and agent.standing != AWAY
        or was_there
        and do in ("look", "write")
    )
    writes = was_there and do == "write"
    return Footprint(who, agent.node if sees else None, agent.node if writes else None)


def cut(agent: int, events: List[Footprint]) -> List[int]:
    """The places of an agent's causal past: its own, and with each place each earlier
    one of the same agent, or one that wrote the node which is seen there."""
    agents: Set[Optional[int]] = {agent}
    nodes: Set[Optional[int]] = set()
    indices = []
    for index in reversed(range(len(events))):
        event = events[index]
        if event.who in agents or event.written in nodes:
            indices.append(index)
            agents.add(event.who)
            nodes |= {event.seen} - {None}
    return indices[::-1]
