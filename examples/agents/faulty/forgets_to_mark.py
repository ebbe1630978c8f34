"""Wrong: it crosses its first link without having written `going` on the whiteboard of
the home base, so the other may choose the same side and follow it."""
from client import Agent, Spent
from ring import LEFT, RIGHT, Search, Walker


class Forgetful(Search):
    def begin(self) -> None:
        self.side = LEFT if self.walker.board else RIGHT


def search(agent: Agent, key: str, nodes: int) -> None:
    try:
        Forgetful(Walker(agent, agent.enter(key)), nodes).run()
    except Spent:
        agent.leave()
