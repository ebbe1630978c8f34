"""Is the black hole named in few moves?"""
from typing import List

from arena_lab.course.exercises import events_of
from arena_lab.rules.model import Match, judge

# moves; agents that go home after each new node make 177 and more in these matches
MAX_MOVES = 130


def check(match: Match) -> List[str]:
    moves = len(events_of(match, "depart"))
    if judge(match).is_solved:
        return [] if moves <= MAX_MOVES else [too_many(match, moves)]
    if all(agent.lost for agent in match.agents):
        return [
            "both agents were lost: the halves have a node in common, or an agent went into a link in front of "
            "which the other had written `going`"
        ]
    if not events_of(match, "accuse"):
        return [
            "nobody accused: an agent that has explored its half goes on, for the other may be lost; divide what is "
            "left, and accuse once that is one node"
        ]
    return [
        "an agent accused a safe link: only the one node that nobody has explored is the black hole"
    ]


def too_many(match: Match, moves: int) -> str:
    """What is said of a right answer that makes too many moves."""
    node = {number: match.setup.home for number in range(len(match.agents))}
    home = 0
    for event in events_of(match, "depart"):
        node[event["agent"]] = match.far[node[event["agent"]]][event["port"]][0]
        home += node[event["agent"]] == match.setup.home
    return (
        f"your agents made {moves} moves, and {MAX_MOVES} are enough: {home} times one of them came home; "
        "what is marked at the nodes themselves need not be noted at home, and what is left is divided in halves"
    )
