"""Has the agent written by which port it came, at the node behind port 0?"""
from typing import List

from arena_lab.course.exercises import (
    accusations,
    events_of,
    is_written,
    placed_events,
)
from arena_lab.rules.model import Match


def check(match: Match) -> List[str]:
    node, port = match.far[match.setup.home][0]
    if not events_of(match, "depart"):
        return [
            "your agent never departed: here = agent.depart(0) goes through port 0, and waits until it arrives"
        ]
    arrivals = [
        site for event, site in placed_events(match) if event["do"] == "deliver"
    ]
    if arrivals[:1] != [node]:
        left_by = events_of(match, "depart")[0]["port"]
        return [
            f"your agent went through port {left_by} of the home base, and not through port 0"
        ]
    writes = [
        (event, site) for event, site in placed_events(match) if is_written(event)
    ]
    if not writes:
        return [
            "your agent went and wrote nothing there: agent.write(here.board, str(here.came))"
        ]
    if all(site != node for _, site in writes):
        where = "the home base" if writes[-1][1] == match.setup.home else "another node"
        return [f"your agent wrote at {where}: write where it has come through port 0"]
    text = match.boards[node]
    if text != str(port):
        return [
            f"your agent came by port {port} of the node and wrote {text!r}: `came` is the port of the "
            "node where it is now; the one by which it left has another number at its other end"
        ]
    return accusations(match)
