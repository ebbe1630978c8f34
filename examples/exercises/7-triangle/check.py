"""Is the black hole named?"""
from typing import List

from arena_lab.course.exercises import events_of
from arena_lab.rules.model import Match, judge


def check(match: Match) -> List[str]:
    if judge(match).is_solved:
        return []
    if all(agent.lost for agent in match.agents):
        return ["both agents were lost: they took the same side"]
    if not events_of(match, "accuse"):
        return [
            "nobody accused: who comes back from its side knows where the black hole is"
        ]
    wrong_ends = [
        link_end for link_end in match.accused if not match.destroys(*link_end)
    ]
    if not wrong_ends:
        return [
            "an agent accused the black hole, and nobody had come from the other node: it has guessed; how long one "
            "waits tells nothing"
        ]
    node, port = wrong_ends[0]
    return [
        f"an agent accused port {port} of node {node}, which leads to a safe node: a port means something at its "
        "own node alone, and the black hole is on the side from which nobody has come back"
    ]
