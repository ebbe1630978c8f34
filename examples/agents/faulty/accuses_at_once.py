"""Wrong: it accuses the link where it meets `going` on the other side, assuming that
the other agent was lost."""
from client import Agent, Spent
from ring import Search, Walker, field


class Hasty(Search):
    def divide(self) -> bool:
        walker = self.walker
        other_side = 1 - self.side
        walker.walk(other_side, self.mine)
        while field(walker.board, other_side) == "safe":
            walker.walk(other_side)
        walker.accuse(other_side)
        return False


def search(agent: Agent, key: str, nodes: int) -> None:
    try:
        Hasty(Walker(agent, agent.enter(key)), nodes).run()
    except Spent:
        agent.leave()
