"""Wrong: of what is left each takes the larger half, so both may take the same node."""
from client import Agent, Spent
from ring import Search, Walker


class Greedy(Search):
    def divide(self) -> bool:
        goes_on = super().divide()
        self.target = self.mine + (self.left() + 1) // 2
        return goes_on


def search(agent: Agent, key: str, nodes: int) -> None:
    try:
        Greedy(Walker(agent, agent.enter(key)), nodes).run()
    except Spent:
        agent.leave()
