"""Wrong: it overwrites the other agent's map instead of merging its discoveries into
it."""
from typing import Callable

from client import Agent, Spent
from map import Map, Searcher


class Blunt(Searcher):
    def put(self, map: Map) -> bool:
        swap = self.agent.write(self.text, map.text())
        while not swap.written:
            swap = self.agent.write(swap.board, map.text())
        self.text = swap.board
        return True


def search(
    agent: Agent, key: str, nodes: int, links: int, sleep: Callable[[float], None]
) -> None:
    try:
        Blunt(agent, agent.enter(key), sleep).run(nodes, links)
    except Spent:
        agent.leave()
