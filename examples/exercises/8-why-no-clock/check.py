"""Is the black hole named, and by nobody who has only waited?"""
from typing import List

from arena_lab.course.exercises import events_of
from arena_lab.rules.model import Match, judge


def check(match: Match) -> List[str]:
    if judge(match).is_solved:
        return []
    waiters = [
        event["agent"]
        for event in events_of(match, "accuse")
        if not events_of(match, "depart", event["agent"])
    ]
    if waiters:
        return [
            f"agent {waiters[0]} accused a port without having gone anywhere: it took an agent for lost that was only "
            "slow; how long one waits tells nothing"
        ]
    if all(agent.lost for agent in match.agents):
        return ["both agents were lost: they took the same side"]
    if not events_of(match, "accuse"):
        return [
            "nobody accused: who comes back from its side knows where the black hole is"
        ]
    return ["an agent accused a safe link: only who comes back knows what is safe"]
