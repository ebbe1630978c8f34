"""Has the agent entered, and looked at the home base?"""
from typing import List

from arena_lab.course.exercises import accusations, events_of, placed_events
from arena_lab.rules.model import Match


def check(match: Match) -> List[str]:
    if not events_of(match, "enter"):
        return ["your agent never entered: agent.enter(key) is its first command"]
    places = [node for event, node in placed_events(match) if event["do"] == "look"]
    if not places:
        return ["your agent entered and did not look: agent.look() shows where it is"]
    if match.setup.home not in places:
        return ["your agent looked at another node: look before it departs"]
    return accusations(match)
