"""Wrong: when all nodes but one are on the map it accuses what leads nowhere there, and
does not count links. Two of these ports may be the ends of one slow link."""
from typing import Callable

from client import Agent, Spent
from map import Map, Searcher


class Short(Map):
    def is_decided(self, nodes: int, links: int) -> bool:
        return len(self.nodes) == nodes - 1


class Quick(Searcher):
    def map(self) -> Map:
        return Short(self.text, self.degree)


def search(
    agent: Agent, key: str, nodes: int, links: int, sleep: Callable[[float], None]
) -> None:
    try:
        Quick(agent, agent.enter(key), sleep).run(nodes, links)
    except Spent:
        agent.leave()
