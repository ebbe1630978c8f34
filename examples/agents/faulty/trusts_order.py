"""Wrong: it assumes that agents return home in the order in which they visited a node
(first in, first out). A node visited earlier by another agent is assumed to be on the
map already."""
from typing import Callable

from client import Agent, Here, Spent
from map import Map, Place, Searcher


class Ordered(Map):
    def join(self, position: Place, name: str, here: Here) -> None:
        if not here.board:
            return super().join(position, name, here)
        far = self.number(name)
        self.mark(position, f"{far}.{here.came}")
        self.mark((far, here.came), f"{position[0]}.{position[1]}")  # type: ignore[arg-type]


class Trusting(Searcher):
    def map(self) -> Map:
        return Ordered(self.text, self.degree)


def search(
    agent: Agent, key: str, nodes: int, links: int, sleep: Callable[[float], None]
) -> None:
    try:
        Trusting(agent, agent.enter(key), sleep).run(nodes, links)
    except Spent:
        agent.leave()
