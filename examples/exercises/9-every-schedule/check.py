"""Is the black hole named, whatever the order of events?"""
from typing import List

from arena_lab.course.exercises import events_of
from arena_lab.rules.model import Match, Object, judge


def check(match: Match) -> List[str]:
    if judge(match).is_solved:
        return []
    writes = [event for event in events_of(match, "write") if event["expect"]]
    for event in writes:
        if event["reply"]["ok"] == "written" and has_erased(event):
            return [
                f"agent {event['agent']} writes {event['put']!r} where {event['expect']!r} stands: what the other "
                "agent has noted is gone; change your own number alone, in what stands there now"
            ]
    for event in writes:
        if event["reply"]["ok"] == "changed" and not is_noted(match, event):
            return [
                f"agent {event['agent']} notes {event['put']!r}, is answered `changed`, and goes on: nobody learns "
                "that these nodes are safe; note again until swap.written"
            ]
    if all(agent.lost for agent in match.agents):
        return [
            "both agents were lost: they explored the same side; only one of them may take a side"
        ]
    if not events_of(match, "accuse"):
        return [
            "nobody accused: who sees that one node is left knows where the black hole is"
        ]
    return [
        "an agent accused a safe link: it has to see first that all nodes but that one are safe"
    ]


def has_erased(event: Object) -> bool:
    """Returns whether a note says of a side that fewer nodes are safe than stood
    there."""
    sides = zip(event["expect"].split(), event["put"].split())
    return any(int(old) > int(new) for old, new in sides)


def is_noted(match: Match, event: Object) -> bool:
    """Returns whether the agent repeats its failed write before it does anything
    else."""
    own_events = [
        event_there
        for event_there in match.log
        if event_there.get("agent") == event["agent"]
    ]
    after = own_events[own_events.index(event) + 1 :]
    return bool(after) and after[0]["do"] == "write"
