"""Is one agent lost at most, does nobody follow into the link, and is what is safe written?"""
from typing import List, Set

from arena_lab.course.exercises import (
    accusations,
    board_at_home,
    events_of,
    is_written,
    placed_events,
)
from arena_lab.rules.model import Match

SAFE = "safe"


def check(match: Match) -> List[str]:
    if not events_of(match, "depart"):
        return ["no agent went through port 0: one of them has to look"]
    lost = sum(agent.lost for agent in match.agents)
    if lost > 1:
        return [
            f"{lost} agents were lost in the same black hole: before it goes an agent writes so at the home base, "
            "and who reads that does not follow"
        ]
    board = board_at_home(match)
    is_safe = match.far[match.setup.home][0][0] not in match.setup.holes
    faults = order_faults(match)
    if not faults and is_safe and board != SAFE:
        return [
            f"the node behind port 0 is safe, and the home base shows {board!r}: who is back writes "
            "'safe' in the place of what it wrote before"
        ]
    return faults[:1] or accusations(match)


def order_faults(match: Match) -> List[str]:
    """Returns what agents did at the home base too early."""
    home = match.setup.home
    behind = match.far[home][0][0]
    on_way: List[int] = []
    were_there: Set[int] = set()
    has_come_back = has_written = False
    faults = []
    for event, node in placed_events(match):
        agent = event["agent"]
        if event["do"] == "deliver" and node == behind:
            were_there.add(agent)
        if node != home:
            continue
        if event["do"] == "deliver":
            has_come_back = has_come_back or agent in were_there
            on_way = [number for number in on_way if number != agent]
        if is_written(event):
            has_written = True
            if event["put"] == SAFE and not has_come_back:
                faults.append(
                    f"agent {agent} wrote 'safe' at the home base, and nobody had come back from the node behind "
                    "port 0: a link may be slow, and an agent on it may be lost"
                )
        if event["do"] == "depart" and event["port"] == 0:
            if on_way and not has_come_back:
                faults.append(
                    f"agent {agent} went through port 0 while agent {on_way[0]} was on its way there: who reads that "
                    "somebody goes does not follow"
                )
            if not has_written:
                faults.append(
                    f"agent {agent} went through port 0 and had written nothing: before it goes an agent writes so "
                    "at the home base"
                )
            on_way.append(agent)
    return faults
