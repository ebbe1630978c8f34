"""A small world in which two agents of a ring search act by turns: each goes on until
it is on its link into a node that nobody has reached. There is no black hole: it is the
last node that nobody has reached, before which an agent waits."""
from typing import Any, Dict, List, NamedTuple, Sequence, Set, Tuple

from greenlet import greenlet

from arena_lab.play.agent_files import AGENTS, load_module

client = load_module(AGENTS / "client.py")

# an agent, and how many new nodes it enters
Run = Tuple[int, int]


class SearchEnd(NamedTuple):
    """How a search ended: its moves, the node that was accused, and how many commands
    each agent used."""

    moves: int
    hole: int
    commands: List[int]


class World:
    """A ring, its whiteboards, and two agents, each of which waits before a new
    node."""

    def __init__(self, search: Any, nodes: int) -> None:
        self.nodes = nodes
        self.boards: Dict[int, str] = {}
        self.reached: Set[int] = {0}
        self.moves = 0
        self.accused: List[int] = []
        self.hub = greenlet.getcurrent()
        self.clients = [Client(self), Client(self)]
        self.agents = [
            greenlet(lambda own_client=client: search(own_client, "", nodes))
            for client in self.clients
        ]
        for agent in self.agents:
            agent.switch()


class Client:
    """What an agent of the world calls."""

    def __init__(self, world: World) -> None:
        self.world = world
        self.node = 0
        self.commands = 1

    def enter(self, key: str) -> Any:
        return client.Here(2, None, self.world.boards.get(0, ""))

    def write(self, expect: str, put: str) -> Any:
        self.commands += 1
        board = self.world.boards.get(self.node, "")
        if board == expect:
            self.world.boards[self.node] = put
            return client.Swap(True, put)
        return client.Swap(False, board)

    def depart(self, port: int) -> Any:
        self.commands += 1
        world = self.world
        self.node = self._beyond(port)
        world.moves += 1
        if self.node not in world.reached:
            world.hub.switch()
            world.reached.add(self.node)
        return client.Here(2, 1 - port, world.boards.get(self.node, ""))

    def accuse(self, port: int) -> None:
        self.commands += 1
        self.world.accused.append(self._beyond(port))

    def _beyond(self, port: int) -> int:
        return (self.node + (1 if port == 0 else -1)) % self.world.nodes


def play_search(search: Any, nodes: int, runs: Sequence[Run]) -> SearchEnd:
    """How a search ends in which the agents enter new nodes in these runs."""
    world = World(search, nodes)
    for agent, count in runs:
        for _ in range(count):
            assert not world.accused, "the search has ended before the runs have"
            world.agents[agent].switch()
    assert world.accused, "nobody accuses"
    assert set(range(nodes)) - world.reached == set(
        world.accused
    ), "another node is accused"
    return SearchEnd(
        world.moves, world.accused[0], [client.commands for client in world.clients]
    )
