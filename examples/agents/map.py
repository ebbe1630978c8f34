#!/usr/bin/env python3
"""Searches any network of which the numbers of nodes and links are known, with more
agents than its greatest degree.

    python3 map.py HOST PORT KEY NODES LINKS

Start it once for each key. The network has one black hole. The search is a cautious
exploration with a map at the home base, after S. Dobrev, P. Flocchini, G. Prencipe and
N. Santoro, "Searching for a black hole in arbitrary networks: optimal mobile agents
protocols" (Distributed Computing 19, 2006), who give this number of agents for networks
that are not known.

The whiteboard of the home base holds the map: each node that was reached, and of each
of its ports what it leads to. An agent claims a port there that nobody has tried, walks
to it over links that are known, crosses it, comes home and adds what it found. A node
that has no name gets one from its first visitor, who writes it on the whiteboard there.
No port is tried twice, so at each link of the black hole one agent is lost at most, and
one is left in the end.

When all nodes but one are in the map, each link that is not in it leads to the black
hole, or joins two nodes of the map. As the number of links is known, so is how many of
these join two nodes. Once there are none, each port that leads nowhere on the map leads
to the black hole: the agents that are left accuse one each, and those for whom none is
left, leave. The number of nodes alone does not suffice: if four agents are on four
links, nobody can tell whether all four lead to the black hole, or two of the ports are
the ends of one slow link.

An agent that finds no port to claim waits: then another agent is on a link that is
safe, and will be back. It looks at the map from time to time, which uses its quota;
nothing is decided by how long it waits.
"""
import time
from collections import deque
from typing import Callable, Dict, List, NamedTuple, Optional, Tuple

from client import Agent, Here, Spent, TooLong, play

UNTRIED = "?"
CLAIMED = "!"
ACCUSED = "x"
HOME = "home"
FIRST_PAUSE = 0.005
LONGEST_PAUSE = 0.25

Place = Tuple[int, int]


class Node:
    """A node of the map: the name on its whiteboard, and of each port what it leads to:
    another node's port, written `W.Q`, or whether it is untried, claimed or accused."""

    def __init__(self, name: str, ports: List[str]) -> None:
        self.name = name
        self.ports = ports

    def far(self, port: int) -> Optional[Place]:
        """Where a port leads, if that is known."""
        node, dot, label = self.ports[port].partition(".")
        return (int(node), int(label)) if dot else None


class Map:
    """The known part of the network; node 0 is the home base."""

    def __init__(self, text: str, ports_of_home: int) -> None:
        if not text:
            text = f"{HOME}:" + ",".join(UNTRIED * ports_of_home)
        rows = [row.partition(":") for row in text.split(";")]
        self.nodes = [Node(name, ports.split(",")) for name, _, ports in rows]

    def text(self) -> str:
        """The map as it stands on the whiteboard of the home base."""
        return ";".join(f"{node.name}:{','.join(node.ports)}" for node in self.nodes)

    def ports(self, *states: str) -> List[Place]:
        """Returns the ports in one of these states."""
        return [
            (v, p)
            for v, node in enumerate(self.nodes)
            for p, state in enumerate(node.ports)
            if state in states
        ]

    def is_decided(self, nodes: int, links: int) -> bool:
        """Returns whether each port that is not on the map leads to the black hole."""
        ends = sum(len(node.ports) for node in self.nodes)
        loose = len(self.ports(UNTRIED, CLAIMED, ACCUSED))
        known_links = (ends - loose) // 2
        return len(self.nodes) == nodes - 1 and loose == links - known_links

    def way(self, start: int, end: int) -> List[int]:
        """The ports of a shortest way over links that are known."""
        before: Dict[int, Tuple[int, int]] = {}
        queue = deque([start])
        while queue:
            node = queue.popleft()
            for port in range(len(self.nodes[node].ports)):
                far = self.nodes[node].far(port)
                if far and far[0] != start and far[0] not in before:
                    before[far[0]] = (node, port)
                    queue.append(far[0])
        ports: List[int] = []
        while end != start:
            end, port = before[end]
            ports.append(port)
        return ports[::-1]

    def nearest(self, places: List[Place]) -> Optional[Place]:
        """The place with the shortest way from the home base."""
        return min(
            places, key=lambda link_end: len(self.way(0, link_end[0])), default=None
        )

    def mark(self, place: Place, state: str) -> None:
        self.nodes[place[0]].ports[place[1]] = state

    def number(self, name: str) -> Optional[int]:
        """Returns the number of the node with this name, or None if the map lacks
        it."""
        return next((v for v, node in enumerate(self.nodes) if node.name == name), None)

    def join(self, place: Place, name: str, here: Here) -> None:
        """Adds the link from this place to the node with this name, where an agent saw
        what `here` says."""
        far = self.number(name)
        if far is None:
            far = len(self.nodes)
            self.nodes.append(Node(name, [UNTRIED] * here.ports))
        self.mark(place, f"{far}.{here.came}")
        self.mark((far, here.came), f"{place[0]}.{place[1]}")


class Find(NamedTuple):
    """What an agent found behind a port: the name of the node, and what it saw
    there."""

    name: str
    here: Here


class Searcher:
    """One agent of the team, at the home base, with its copy of the map."""

    def __init__(
        self, agent: Agent, here: Here, sleep: Callable[[float], None]
    ) -> None:
        self.agent = agent
        self.sleep = sleep
        self.degree = here.ports
        self.text = here.board

    def map(self) -> Map:
        return Map(self.text, self.degree)

    def put(self, map: Map) -> bool:
        """Writes the map, unless another agent has changed it; then reads it again."""
        swap = self.agent.write(self.text, map.text())
        self.text = swap.board
        return swap.written

    def walk(self, ports: List[int]) -> None:
        for port in ports:
            self.text = self.agent.depart(port).board

    def wait(self) -> None:
        """Waits until the map is another one."""
        pause = FIRST_PAUSE
        before = self.text
        while self.text == before:
            self.sleep(pause)
            pause = min(2 * pause, LONGEST_PAUSE)
            self.text = self.agent.look().board

    def name_of(self, here: Here, claim: Place) -> str:
        """Returns the name on the whiteboard of the agent's node. A node without a name
        is named after the claim."""
        if here.board.startswith(HOME):
            return HOME
        if here.board:
            return here.board
        return self.agent.write("", f"{claim[0]}.{claim[1]}").board

    def try_port(self, claim: Place) -> None:
        """Crosses the port that the agent has claimed, and adds what it found to the
        map."""
        chart_now = self.map()
        way_back = chart_now.way(claim[0], 0)
        self.walk(chart_now.way(0, claim[0]))
        here = self.agent.depart(claim[1])
        find = Find(self.name_of(here, claim), here)
        number = chart_now.number(find.name)
        if number is None:
            self.walk([here.came] + way_back)
        elif number == 0:
            self.text = here.board
        else:
            self.walk(chart_now.way(number, 0))
        while True:
            new_map = self.map()
            new_map.join(claim, find.name, find.here)
            if new_map.text() == self.text or self.put(new_map):
                return

    def accuse(self, place: Place) -> None:
        self.walk(self.map().way(0, place[0]))
        self.agent.accuse(place[1])

    def run(self, nodes: int, links: int) -> None:
        """Searches until the agent has accused, or has left as there was nothing more
        to accuse."""
        while True:
            now = self.map()
            is_decided = now.is_decided(nodes, links)
            target = now.nearest(
                now.ports(UNTRIED, CLAIMED) if is_decided else now.ports(UNTRIED)
            )
            if target is None and is_decided:
                return self.agent.leave()
            if target is None:
                self.wait()
                continue
            now.mark(target, ACCUSED if is_decided else CLAIMED)
            if self.put(now):
                if is_decided:
                    return self.accuse(target)
                self.try_port(target)


def search(
    agent: Agent,
    key: str,
    nodes: int,
    links: int,
    sleep: Callable[[float], None] = time.sleep,
) -> None:
    """Enters, searches, and accuses or leaves."""
    try:
        Searcher(agent, agent.enter(key), sleep).run(nodes, links)
    except Spent:
        agent.leave()
    except TooLong:
        print(
            f"{key}: the whiteboard at the home base is too small for a map of this network"
        )
        agent.leave()


if __name__ == "__main__":
    play(__doc__, search, 2)
