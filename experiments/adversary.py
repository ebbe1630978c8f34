"""A scheduler that makes the search by thirds move most, as experiments/division.py counts it. For N nodes the black
hole must be at the node that

    /usr/bin/python3 -m experiments.division attain N

prints. Then

    ./arena-lab run --network ring:16 --hole 14 --agent "examples/agents/ring3.py {nodes}" \\
        --scheduler experiments/adversary.py:worst_case --keep out/worst

plays the worst case, and `./arena-lab replay out/worst` makes a page of it. An agent waits on its link into a node
that nobody has reached until it is its turn, and never enters the black hole. All else happens at once, the right
agent's steps before the left one's.
"""
from typing import Any, Callable, List, Optional

from experiments.division import Table, of_ring3


def worst_case(seed: int) -> Callable[[List[Any], Any], Any]:
    """The scheduler; it draws nothing, so each seed gives the same."""
    turns: List[Optional[int]] = []

    def begin(match: Any) -> None:
        runs, right = Table(match.setup.nodes, of_ring3).runs()
        if list(match.setup.holes) != [right + 1]:
            raise ValueError(
                f"the worst case on {match.setup.nodes} nodes has its black hole at node {right + 1}"
            )
        turns.extend([agent for agent, count in runs for _ in range(count)] + [None])

    def choose(choices: List[Any], state: Any) -> Any:
        match = state.match
        if not turns:
            begin(match)
        new = {}
        for choice in choices:
            agent = match.agents[choice.agent]
            ahead = (agent.node + (1 if agent.port == 0 else -1)) % match.setup.nodes
            if (
                choice.do != "arrive"
                or ahead in match.reached
                or ahead == match.setup.home
            ):
                return choice
            new[choice.agent] = choice
        return new[turns.pop(0)] if turns[0] in new else choices[0]

    return choose
