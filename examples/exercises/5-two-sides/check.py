"""Have the agents taken different sides, and by the whiteboard?"""
from typing import Dict, List, Sequence, Tuple

from arena_lab.course.exercises import accusations, events_of, is_accepted, is_written
from arena_lab.rules.model import Match, spell

SAME = "their programs are the same, so only the whiteboard can part them"


def check(match: Match) -> List[str]:
    sides = [
        [event["port"] for event in events_of(match, "depart", agent)][:1]
        for agent in (0, 1)
    ]
    if not all(sides):
        return ["an agent never departed: each goes through one port of the home base"]
    if sides[0] == sides[1]:
        return [f"both agents went through port {sides[0][0]}: {cause_of(match)}"]
    departure = events_of(match, "depart")[0]
    before = match.log[: match.log.index(departure)]
    if not any(map(is_written, before)):
        return [
            f"agent {departure['agent']} went through port {departure['port']} before anybody had written: the other "
            f"would see the same and go the same way; {SAME}"
        ]
    return accusations(match)


def cause_of(match: Match) -> str:
    """Why both may have gone the same way."""
    if len(events_of(match, "look")) + len(events_of(match, "write")) == 0:
        return SAME
    if not events_of(match, "write"):
        return "they looked, and neither wrote anything"
    return "both saw the whiteboard before either had written; a write that expects what was seen tells who was first"


def check_all(matches: Sequence[Tuple[Match, Sequence[str]]]) -> List[str]:
    """Did agents that had been told the same go through different ports?"""
    ports: Dict[Tuple[str, ...], int] = {}
    for match, keys in matches:
        for agent, key in enumerate(keys):
            past: Tuple[str, ...] = ()
            for event in match.log:
                if event.get("agent") != agent or not is_accepted(event):
                    continue
                port = event.get("port", 0)
                if event["do"] == "depart" and ports.setdefault(past, port) != port:
                    return [
                        "agents that had been told the same went through different ports: chance, a key or a clock "
                        f"chose; {SAME}"
                    ]
                rest = {name: event[name] for name in event if name != "agent"}
                past = (*past, spell(rest).replace(key, "its key"))
    return []
