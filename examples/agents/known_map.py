#!/usr/bin/env python3
"""Searches any network with two agents that have its map: its links with the labels of
their ports, and the home base.

    python3 known_map.py HOST PORT KEY NETWORK HOME

NETWORK is the file of the network, which does not say where the black hole is, and HOME
the number of the home base. Start it twice, with the keys of both agents. The network
has one black hole.

The agents explore disjoint parts of what is left, as in the search of a ring by S.
Dobrev, P. Flocchini, G. Prencipe and N. Santoro, "Mobile search for a black hole in an
anonymous ring" (Algorithmica 48, 2007). In "Searching for a black hole in arbitrary
networks: optimal mobile agents protocols" (Distributed Computing 19, 2006) they show
that two agents that have the map suffice, and that they need moves of the order of n
log n. The division below is our own.

A network stays connected without any one node. So the nodes that are left can be put in
an order such that each front of the order, and each rest behind a front, hangs together
with what is explored (`order_of`). One agent takes the front half, the other the rest.
Both know each list of crossings, by which node each node of a part is entered, in what
order.

An agent crosses a link, comes back, and writes `safe` of its port. Once its part is
explored, it follows the crossings of the other up to the first that is not safe. There
it writes `told` and all nodes that are explored, and what is left is divided anew. The
node that the other is about to enter is the first of the new order, and is again the
other's. So no two agents ever enter nodes that the other may enter, and one agent is
lost at most. The other reads what was told when it comes to that port, or comes back.
When one node is left, that is the black hole. No agent waits for the other, and nothing
is decided by time.

Each division leaves at most half of what was left, and costs at most a few walks around
a tree of the network.
"""
import functools
import tomllib
from collections import deque
from typing import Dict, FrozenSet, List, NamedTuple, Optional, Sequence, Tuple

from client import Agent, Here, Spent, TooLong, play_words

TOLD = 0
TELLER = 1
FRONT = "front"

Nodes = FrozenSet[int]
Link = Tuple[int, int, int, int]


class Crossing(NamedTuple):
    """How a node is entered for the first time: from which node, by which port."""

    start: int
    port: int
    end: int


class Plan(NamedTuple):
    """A division of the network: the nodes explored before, and the crossings of the
    informed agent and of the informing agent."""

    explored: Nodes
    crossings: Tuple[Tuple[Crossing, ...], Tuple[Crossing, ...]]


class NotBiconnectedError(Exception):
    """Two agents cannot search the network, as without one node it is not connected."""


class Map:
    """The network of a file."""

    def __init__(self, links: Sequence[Link]) -> None:
        nodes = 1 + max(max(v, w) for v, _, w, _ in links)
        self.nodes = frozenset(range(nodes))
        # of each node where its ports lead, by the node at the other end
        self.ports: List[Dict[int, int]] = [{} for _ in range(nodes)]
        for v, p, w, q in links:
            self.ports[v][w] = p
            self.ports[w][v] = q

    def way(self, start: int, end: int, safe: Nodes) -> List[int]:
        """The nodes behind the start of a shortest way over safe nodes."""
        before = {start: start}
        queue = deque([start])
        while end not in before:
            node = queue.popleft()
            for far in sorted(self.ports[node]):
                if far in safe and far not in before:
                    before[far] = node
                    queue.append(far)
        route = []
        while end != start:
            route.append(end)
            end = before[end]
        return route[::-1]

    def order_of(self, explored: Nodes, first: int) -> List[int]:
        """The nodes that are left, in an order such that each front and each rest hangs
        together with what is explored. The first is a neighbour of an explored node. A
        part that only explored nodes join to the others stands in one piece."""
        order: List[int] = []
        nodes_left = self.nodes - explored
        while nodes_left:
            part = self._part_order(explored, nodes_left, first)
            order += part
            nodes_left -= set(part)
            first = next(
                (
                    node
                    for node in sorted(nodes_left)
                    if explored & set(self.ports[node])
                ),
                -1,
            )
        return order

    def _part_order(self, explored: Nodes, nodes_left: Nodes, first: int) -> List[int]:
        """The order of the part of the first node. It grows by paths between two that
        stand in it already, which are put between them; what is explored counts as one
        node, and stands last."""
        last = -1
        order = [first, last]
        while True:
            path = self._path(explored, nodes_left, order)
            if path is None:
                return order[:-1]
            start, *inner, end = path
            if order.index(start) > order.index(end):
                start = end
                inner = inner[::-1]
            spot = order.index(start) + 1
            order[spot:spot] = inner

    def _path(
        self, nodes_explored: Nodes, nodes_left: Nodes, order: List[int]
    ) -> Optional[List[int]]:
        """Returns a path that leaves the ordered nodes, crosses new ones and comes
        back; None if no new node is adjacent."""

        def near(node: int) -> List[int]:
            return sorted(
                {
                    -1 if far in nodes_explored else far
                    for far in self.ports[node]
                    if far in nodes_left | nodes_explored
                }
            )

        nodes_placed = set(order)
        for start in order[:-1]:
            new = next((node for node in near(start) if node not in nodes_placed), None)
            if new is None:
                continue
            before = {new: start}
            queue = deque([new])
            while queue:
                node = queue.popleft()
                for far in near(node):
                    if far in nodes_placed and far != start:
                        return path_to(before, node, start) + [far]
                    if far not in nodes_placed and far not in before:
                        before[far] = node
                        queue.append(far)
            raise NotBiconnectedError(
                f"without node {start} the network is not connected"
            )
        return None

    def crossings(
        self, explored: Nodes, part: Sequence[int], start: int
    ) -> List[Crossing]:
        """How the nodes of a part are entered: as in a walk around a tree, in depth
        first, which begins with the start and prefers nodes of the part in their
        order."""
        rank = {node: number for number, node in enumerate(part)}
        inside = explored | set(part)
        nodes_seen = {start}
        walk = []
        stack = [(start, iter(self._ahead(start, inside, rank)))]
        while stack:
            node, ahead = stack[-1]
            far = next((node for node in ahead if node not in nodes_seen), None)
            if far is None:
                stack.pop()
                continue
            nodes_seen.add(far)
            if far in rank:
                walk.append(Crossing(node, self.ports[node][far], far))
            stack.append((far, iter(self._ahead(far, inside, rank))))
        return walk

    def _ahead(self, node: int, inside: Nodes, rank: Dict[int, int]) -> List[int]:
        """The neighbours of a node inside: first those with a rank."""
        near = [far for far in self.ports[node] if far in inside]
        return sorted(near, key=lambda far: (rank.get(far, len(inside)), far))

    @functools.lru_cache(maxsize=1024)
    def plan(self, explored: Nodes, start: int, first: int) -> Plan:
        """Divides the unexplored nodes. The informed agent enters `first` from `start`
        and continues in its part; the informing agent also begins at `start`."""
        order = self.order_of(explored, first)
        half = (len(order) + 1) // 2
        told, teller = (
            tuple(self.crossings(explored, part, start))
            for part in (order[:half], order[half:])
        )
        return Plan(explored, (told, teller))


@functools.lru_cache(maxsize=16)
def map_of(links: Tuple[Link, ...]) -> Map:
    """The map of these links, which agents in one process share."""
    return Map(links)


def path_to(before: Dict[int, int], node: int, start: int) -> List[int]:
    """The path that leads to a node from the start."""
    path = [node]
    while path[-1] != start:
        path.append(before[path[-1]])
    return path[::-1]


def fields(board: str) -> Dict[str, str]:
    """What a whiteboard says, by what it says it of: a port, or `front`, which an agent
    has taken."""
    return dict(part.split(" ", 1) for part in board.split(", ")) if board else {}


def text_of(values: Dict[str, str]) -> str:
    return ", ".join(f"{key} {value}" for key, value in values.items())


def mask_of(nodes: Nodes) -> str:
    """A set of nodes as a hexadecimal number, a bit a node."""
    return f"{sum(1 << node for node in nodes):x}"


def nodes_of(mask: str) -> Nodes:
    number = int(mask, 16)
    return frozenset(node for node in range(number.bit_length()) if number >> node & 1)


class Searcher:
    """One agent: position, current plan and role, and the nodes known to be safe."""

    def __init__(self, agent: Agent, here: Here, network: Map, home: int) -> None:
        self.agent = agent
        self.map = network
        self.node = home
        self.board = here.board
        self.safe = frozenset([home])
        self.plan = network.plan(self.safe, home, min(network.ports[home]))
        self.role = TOLD

    def run(self) -> None:
        """Searches until the agent has accused."""
        if FRONT in fields(self.board) or not self.say(FRONT, "taken"):
            self.role = TELLER
        while True:
            if not self.explore():
                return
            theirs = self.plan.crossings[1 - self.role]
            if len(theirs) == 1:
                return self.accuse(theirs[0].end)
            if not self.divide():
                return

    def explore(self) -> bool:
        """Explores the agent's part; answers whether it is still searching."""
        number = 0
        while number < len(self.plan.crossings[self.role]):
            crossing = self.plan.crossings[self.role][number]
            self.walk(crossing.start)
            if self.hear(crossing):
                number = 0
                if self.left() == {crossing.end}:
                    self.accuse(crossing.end)
                    return False
            self.move(crossing.end)
            self.move(crossing.start)
            if self.mark(crossing):
                number = 0
            number += 1
        return True

    def mark(self, crossing: Crossing) -> bool:
        """Writes that a crossing is safe; answers whether the other has told something
        there before."""
        has_heard = self.hear(crossing)
        while not self.say(str(crossing.port), "safe"):
            has_heard = self.hear(crossing) or has_heard
        self.safe |= {crossing.end}
        return has_heard

    def hear(self, crossing: Crossing) -> bool:
        """Reads the other agent's message at the port of a crossing; returns whether it
        is new."""
        kind, _, mask = fields(self.board).get(str(crossing.port), "").partition(" ")
        if kind != "told" or nodes_of(mask) == self.plan.explored:
            return False
        self.safe |= nodes_of(mask)
        self.plan = self.map.plan(self.safe, crossing.start, crossing.end)
        self.role = TOLD
        return True

    def divide(self) -> bool:
        """Follows the other over nodes that are safe, and divides what is left there;
        answers whether there is more than one node. Else that is the black hole, and
        the agent accuses it."""
        for crossing in self.plan.crossings[1 - self.role]:
            self.walk(crossing.start)
            port = str(crossing.port)
            told = f"told {mask_of(self.safe)}"
            while fields(self.board).get(port) != "safe":
                if self.say(port, told):
                    return self.follow(crossing)
            self.safe |= {crossing.end}
        self.agent.leave()
        return False

    def follow(self, crossing: Crossing) -> bool:
        """Takes the plan that the agent has told; answers whether it is still
        searching."""
        if self.left() == {crossing.end}:
            self.accuse(crossing.end)
            return False
        self.plan = self.map.plan(self.safe, crossing.start, crossing.end)
        self.role = TELLER
        return True

    def left(self) -> Nodes:
        return self.map.nodes - self.safe

    def say(self, key: str, value: str) -> bool:
        """Writes a field on the whiteboard unless the other agent has changed the
        board, and reads the board again."""
        swap = self.agent.write(self.board, text_of({**fields(self.board), key: value}))
        self.board = swap.board
        return swap.written

    def walk(self, end: int) -> None:
        """Goes to a node over safe ones."""
        for node in self.map.way(self.node, end, self.safe):
            self.move(node)

    def move(self, node: int) -> None:
        self.board = self.agent.depart(self.map.ports[self.node][node]).board
        self.node = node

    def accuse(self, hole: int) -> None:
        """Accuses the black hole, from the nearest safe node beside it."""
        near = [node for node in self.map.ports[hole] if node in self.safe]
        start = min(
            near, key=lambda node: (len(self.map.way(self.node, node, self.safe)), node)
        )
        self.walk(start)
        self.agent.accuse(self.map.ports[start][hole])


def search(agent: Agent, key: str, network: Sequence[Link], home: int) -> None:
    """Enters, searches and accuses."""
    try:
        Searcher(agent, agent.enter(key), map_of(tuple(network)), home).run()
    except (Spent, TooLong):
        agent.leave()


def links_in(path: str) -> List[Link]:
    """The links of a network's file."""
    with open(path, "rb") as file:
        return [tuple(link) for link in tomllib.load(file)["links"]]


if __name__ == "__main__":
    play_words(__doc__, search, links_in, int)
