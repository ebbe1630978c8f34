"""Does the home base show how many nodes there are?"""
from typing import List

from arena_lab.course.exercises import accusations, board_at_home, events_of
from arena_lab.rules.model import Match


def check(match: Match) -> List[str]:
    nodes = match.setup.nodes
    moves = len(events_of(match, "depart"))
    board = board_at_home(match)
    if board == str(nodes):
        return accusations(match)
    if not moves:
        return ["your agent never departed: it cannot count what it has not seen"]
    if moves < nodes:
        return [
            f"your agent made {moves} moves and wrote {board!r}, and the ring has {nodes} nodes: it was not home "
            "again, or took another node for it; a mark on the whiteboard tells, and who came by one of two ports "
            "goes on by the other"
        ]
    return [
        f"the whiteboard of the home base shows {board!r}, and the ring has {nodes} nodes: is each counted once, "
        "and the number written at home?"
    ]
