#!/usr/bin/env python3
"""Searches a ring with two agents that know its number of nodes.

    python3 ring.py HOST PORT KEY NODES

Start it twice, with the keys of both agents. The search is the one by cautious walk and
division of what is left of S. Dobrev, P. Flocchini, G. Prencipe and N. Santoro, "Mobile
search for a black hole in an anonymous ring" (Algorithmica 48, 2007).

One agent explores to the right of the home base, which is by its port 0, the other to
the left, and each is to explore half of what is left. It goes on cautiously: it writes
`going` on the whiteboard, goes on to the next node, comes back, and writes `safe`. So
the other agent can follow it over links that are safe, to its last safe node. An agent
that has explored its half does so, divides what is left anew, and writes there how far
it has come: `told 5`, to the fifth node of its side. The other reads that when it comes
back; if it does not come back, the next division has a smaller half for it. When one
node is left, that is the black hole. No agent waits for the other, and nothing is
decided by time.

A whiteboard holds what is known of the links to its right and left, as `right safe,
left told 5`; 32 bytes suffice.
"""
from typing import Optional

from client import Agent, Here, Spent, Swap, play

RIGHT = 0
LEFT = 1
SIDES = ("right", "left")


def field(board: str, side: int) -> str:
    """What a whiteboard says of the link on this side: `new`, `going`, `safe`, `told N`
    or `hole`."""
    return board.split(", ")[side].partition(" ")[2] if board else "new"


def with_field(board: str, side: int, value: str) -> str:
    """Returns the text of a whiteboard with a new field for this side; the field of the
    other side stays."""
    return ", ".join(
        f"{SIDES[direction]} {value if direction == side else field(board, direction)}"
        for direction in (RIGHT, LEFT)
    )


class Walker:
    """An agent on a ring, who knows which of the two ports of its node is to the right.

    It takes that from the way that it came, so the labels need not agree around the
    ring.
    """

    def __init__(self, agent: Agent, here: Here) -> None:
        self._agent = agent
        self._here = here
        self._going: Optional[int] = None
        self.board = here.board

    def _port(self, side: int) -> int:
        if self._going is None or self._here.came is None:
            return side
        return 1 - self._here.came if side == self._going else self._here.came

    def walk(self, side: int, steps: int = 1) -> None:
        for _ in range(steps):
            self._here = self._agent.depart(self._port(side))
            self._going = side
            self.board = self._here.board

    def swap(self, put: str) -> bool:
        """Writes on the whiteboard, unless somebody wrote there since it was read; then
        reads it again."""
        swap: Swap = self._agent.write(self.board, put)
        self.board = swap.board
        return swap.written

    def accuse(self, side: int) -> None:
        self._agent.accuse(self._port(side))


class Search:
    """The search by one agent: numbers of safe nodes on both sides, and of nodes to
    explore. Both halves are counted from the home base."""

    def __init__(self, walker: Walker, nodes: int) -> None:
        self.walker = walker
        self.nodes = nodes
        self.side = RIGHT
        self.mine = 0
        self.theirs = 0
        self.target = 0

    def run(self) -> None:
        """Searches until the agent has accused."""
        self.begin()
        left = self.nodes - 1
        self.target = (left + 1) // 2 if self.side == RIGHT else left // 2
        while True:
            if not self.explore():
                return
            if self.left() == 1:
                return self.walker.accuse(self.side)
            if not self.divide():
                return

    def begin(self) -> None:
        """Chooses the right side, unless the other has chosen it before."""
        if self.walker.board or not self.walker.swap(with_field("", RIGHT, "going")):
            self.side = LEFT

    def left(self) -> int:
        """Returns how many nodes are left, as far as the agent knows."""
        return self.nodes - 1 - self.mine - self.theirs

    def mark(self, value: str) -> bool:
        """Writes a mark for the link ahead, and reads the other agent's mark; returns
        whether the link is safe."""
        walker = self.walker
        while True:
            value_there = field(walker.board, self.side)
            if value_there == "hole":
                return False
            if value_there.startswith("told"):
                self.theirs = int(value_there.split()[1])
                self.target = self.mine + (self.left() + 1) // 2
            if value_there == value or walker.swap(
                with_field(walker.board, self.side, value)
            ):
                return True

    def explore(self) -> bool:
        """Explores the agent's half from its last safe node on; answers whether it is
        still searching."""
        walker = self.walker
        side = self.side
        while self.mine < self.target:
            if not self.mark("going"):
                walker.accuse(side)
                return False
            walker.walk(side)
            walker.walk(1 - side)
            self.mark("safe")
            self.mine += 1
            walker.walk(side)
        return True

    def divide(self) -> bool:
        """Goes to the last safe node of the other side, and divides what is left;
        answers whether there is more than one node. Else that is the black hole, and
        the agent accuses the link to it."""
        walker = self.walker
        other = 1 - self.side
        walker.walk(other, self.mine)
        self.theirs = 0
        while True:
            if field(walker.board, other) == "safe":
                walker.walk(other)
                self.theirs += 1
                continue
            last = self.left() == 1
            if walker.swap(
                with_field(walker.board, other, "hole" if last else f"told {self.mine}")
            ):
                break
        if last:
            walker.accuse(other)
            return False
        self.target = self.mine + self.left() // 2
        walker.walk(self.side, self.theirs + self.mine)
        return True


def search(agent: Agent, key: str, nodes: int) -> None:
    """Enters, searches and accuses."""
    try:
        Search(Walker(agent, agent.enter(key)), nodes).run()
    except Spent:
        agent.leave()


if __name__ == "__main__":
    play(__doc__, search, 1)
