"""Wrong: it goes on by the same port number at each node, as if a link had one number
at both of its ends. That holds on a ring whose ports are numbered one way round."""
from client import Agent, Spent
from ring import Search, Walker


class Straight(Walker):
    def _port(self, side: int) -> int:
        return side


def search(agent: Agent, key: str, nodes: int) -> None:
    try:
        Search(Straight(agent, agent.enter(key)), nodes).run()
    except Spent:
        agent.leave()
