"""What came of a match that was not solved, as a referee who sees the network tells it:
one fact a sentence."""
import re
from typing import Collection, Dict, Iterator, List, Sequence

from arena_lab.play.matches import STUCK
from arena_lab.rules.model import (
    AWAY,
    BYE,
    OUTSIDE,
    PRESENT,
    AgentState,
    Match,
    Place,
    outcome_of,
)


def agents(numbers: Sequence[int]) -> str:
    """Agents as the subject of a sentence."""
    if len(numbers) == 1:
        return f"agent {numbers[0]}"
    return f"agents {', '.join(map(str, numbers[:-1]))} and {numbers[-1]}"


def link(match: Match, agent: AgentState) -> str:
    """The link over which an agent went last."""
    return f"the link from node {agent.node} to node {match.far[agent.node][agent.port][0]}"


def report(match: Match, faults: Sequence[str] = ()) -> List[str]:
    """Returns sentences that explain the outcome of an unsolved match; [] if it is
    solved. The agents' faults tell which of them slept at the end."""
    outcome = outcome_of(match)
    if outcome == "solved":
        return []
    asleep = [
        int(agent_text)
        for fault in faults
        for agent_text in re.findall(rf"^agent (\d+): {re.escape(STUCK)}$", fault)
    ]
    return [
        *accusations(match),
        *losses(match),
        *ends(match, asleep),
        *open_questions(match, outcome),
    ]


def accusations(match: Match) -> Iterator[str]:
    """Yields who accused a safe link; or that nobody accused, and who left."""
    for event in match.log:
        agent = match.agents[event["agent"]] if event["do"] == "accuse" else None
        link_end = agent and (agent.node, agent.port)
        if (
            agent
            and link_end in match.accused
            and not match.destroys(agent.node, agent.port)
        ):
            yield (
                f"agent {event['agent']} accused port {agent.port} of node {agent.node}, which leads to node "
                f"{match.far[agent.node][agent.port][0]}, which is safe"
            )
    leavers = [
        event["agent"]
        for event in match.log
        if event["do"] == "leave" and event["reply"] == BYE
    ]
    if not match.accused:
        yield f"nobody accused: {agents(sorted(leavers))} left" if leavers else "nobody accused"


def losses(match: Match) -> Iterator[str]:
    """Yields for each link the agents that were destroyed there."""
    losses_at: Dict[Place, List[int]] = {}
    for number, agent in enumerate(match.agents):
        if agent.lost:
            losses_at.setdefault((agent.node, agent.port), []).append(number)
    for (node, port), lost in losses_at.items():
        end = "a dark link" if (node, port) in match.dark else "the black hole"
        both = {1: "", 2: "both "}.get(len(lost), "all ")
        yield f"{agents(lost)} {both}went over {link(match, match.agents[lost[0]])}, {end}"


def ends(match: Match, asleep: Collection[int]) -> Iterator[str]:
    """Yields the agents that never entered, and those at nodes or on links at the
    end."""
    outside = [
        number for number, agent in enumerate(match.agents) if agent.standing == OUTSIDE
    ]
    if outside:
        yield f"{agents(outside)} never entered"
    for number, agent in enumerate(match.agents):
        if agent.standing == PRESENT:
            wait_text = (
                " and waited for a whiteboard that nobody changed"
                if number in asleep
                else ""
            )
            yield f"agent {number} still stood at node {agent.node}{wait_text}"
        elif agent.standing == AWAY and not agent.lost:
            yield f"agent {number} was still on {link(match, agent)}"


def open_questions(match: Match, outcome: str) -> Iterator[str]:
    """Yields what a correct accusation leaves open: black holes not accused, and an
    unvisited node."""
    holes_accused = {match.far[node][port][0] for node, port in match.accused}
    if match.accused and outcome == "silent":
        yield from (
            f"nobody accused a link into the black hole at node {hole}"
            for hole in match.setup.holes
            if hole not in holes_accused
        )
    if outcome.startswith("guess "):
        yield f"nobody visited node {outcome.split()[1]}, so that might as well be the black hole"
