"""Wrong: it takes agents for lost that are away for longer than three naps, and accuses
a port that they have claimed. An agent on a slow link is away for as long."""
from typing import Callable

from client import Agent, Here, Spent
from map import Map, Searcher

SPURIOUS_WAKEUPS = 3


class Decided(Map):
    def is_decided(self, nodes: int, links: int) -> bool:
        return True


class Hasty(Searcher):
    def __init__(
        self, agent: Agent, here: Here, sleep: Callable[[float], None]
    ) -> None:
        super().__init__(agent, here, sleep)
        self.has_waited = False

    def map(self) -> Map:
        return (Decided if self.has_waited else Map)(self.text, self.degree)

    def wait(self) -> None:
        before = self.text
        for _ in range(SPURIOUS_WAKEUPS):
            self.sleep(1)
            self.text = self.agent.look().board
            if self.text != before:
                return
        self.has_waited = True


def search(
    agent: Agent, key: str, nodes: int, links: int, sleep: Callable[[float], None]
) -> None:
    try:
        Hasty(agent, agent.enter(key), sleep).run(nodes, links)
    except Spent:
        agent.leave()
