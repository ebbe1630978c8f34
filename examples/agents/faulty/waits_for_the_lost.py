"""Wrong: before it accuses, it waits until no agent occupies a claimed port. A lost
agent occupies its port forever."""
from typing import Callable

from client import Agent, Spent
from map import CLAIMED, Map, Searcher


class Patient(Map):
    def is_decided(self, nodes: int, links: int) -> bool:
        return super().is_decided(nodes, links) and not self.ports(CLAIMED)


class Waiting(Searcher):
    def map(self) -> Map:
        return Patient(self.text, self.degree)


def search(
    agent: Agent, key: str, nodes: int, links: int, sleep: Callable[[float], None]
) -> None:
    try:
        Waiting(agent, agent.enter(key), sleep).run(nodes, links)
    except Spent:
        agent.leave()
