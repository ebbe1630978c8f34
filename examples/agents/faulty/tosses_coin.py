"""Wrong: each agent draws its side by itself, and does not ask the whiteboard whether
the other has drawn the same. That goes well with half of all keys."""
import random

from client import Agent, Spent
from ring import LEFT, RIGHT, Search, Walker


class Tossing(Search):
    def begin(self) -> None:
        self.side = random.choice((RIGHT, LEFT))


def search(agent: Agent, key: str, nodes: int) -> None:
    try:
        Tossing(Walker(agent, agent.enter(key)), nodes).run()
    except Spent:
        agent.leave()
