"""Wrong: it reads a whiteboard once, and does not read again if the other agent writes
first."""
from client import Agent, Spent
from ring import Search, Walker, field, with_field


class Careless(Search):
    def mark(self, value: str) -> bool:
        walker = self.walker
        value_before = field(walker.board, self.side)
        if value_before == "hole":
            return False
        if value_before.startswith("told"):
            self.theirs = int(value_before.split()[1])
            self.target = self.mine + (self.left() + 1) // 2
        walker.swap(with_field(walker.board, self.side, value))
        return True


def search(agent: Agent, key: str, nodes: int) -> None:
    try:
        Careless(Walker(agent, agent.enter(key)), nodes).run()
    except Spent:
        agent.leave()
