"""The agent of the run beside it: it walks to the next node and back, writes, and
accuses."""
from typing import Any


def search(agent: Any, key: str, nodes: int) -> None:
    agent.enter(key)
    here = agent.depart(1)
    agent.write(here.board, f"{nodes} nodes")
    agent.depart(here.came)
    agent.look()
    agent.accuse(0)
