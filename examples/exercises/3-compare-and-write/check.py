"""Does each agent add 1 five times, and does the whiteboard show 10 in the end?"""
from typing import List

from arena_lab.course.exercises import (
    accusations,
    board_at_home,
    events_of,
    is_written,
)
from arena_lab.rules.model import Match, Object

EACH = 5


def check(match: Match) -> List[str]:
    board = board_at_home(match)
    writes = [event for event in events_of(match, "write") if is_written(event)]
    jumps = [event for event in writes if not is_next(event)]
    if jumps:
        jump = jumps[0]
        return [
            f"agent {jump['agent']} wrote {jump['put']!r} where {jump['expect']!r} stood: add 1 to what stands there "
            "when it writes"
        ]
    if board != str(EACH * match.setup.agents):
        return [text_of(match, board)]
    counts = [
        sum(event["agent"] == agent for event in writes)
        for agent in range(match.setup.agents)
    ]
    for agent, count in enumerate(counts):
        if count != EACH:
            return [
                f"agent {agent} added 1 {count} times, and each adds it {EACH} times: count what this agent has "
                "written, and not what stands there"
            ]
    return accusations(match)


def is_next(event: Object) -> bool:
    """Returns whether a write adds 1 to what stood there."""
    number = event["expect"] or "0"
    return bool(number.isdecimal() and event["put"] == str(int(number) + 1))


def text_of(match: Match, board: str) -> str:
    """What is said of another number than 10."""
    text = f"the whiteboard shows {board!r} in the end and not '10'"
    lost = sum(event["reply"]["ok"] == "changed" for event in events_of(match, "write"))
    if not lost:
        return text
    return (
        f"{text}: {lost} writes were answered `changed`, as the other agent had written meanwhile, and were not made "
        "again: read what stands there now, and decide again"
    )
