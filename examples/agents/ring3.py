#!/usr/bin/env python3
"""Searches a ring with two agents that know its number of nodes, in few moves.

    python3 ring3.py HOST PORT KEY NODES

Start it twice, with the keys of both agents. Like `ring.py` it explores cautiously and
divides what is left, but into three parts. B. Balamohan, P. Flocchini, A. Miri and N.
Santoro, "Improving the optimal bounds for black hole search in rings" (SIROCCO 2011),
state that 3 n log3 n + O(n) moves suffice. We know their abstract alone, so this need
not be their algorithm. docs/RINGS.md explains why three parts are better than two, and
what is known of the worst case.

One agent explores to the right of the home base, which is by its port 0, the other to
the left. Each has the part of what is left that is next to it. The middle part belongs
to the agent that claims it first, on the whiteboard half way between the two agents,
the box. An agent that has explored its part walks to the box and claims the middle. If
the other has claimed it, or once the agent has explored the middle too, it follows the
other over safe links to the other's last safe node. There it divides what is left anew,
and writes how far it has come itself: `told 5` means to the fifth node of its side. The
other reads that when it comes back to this node, or when it first comes there. Then
both know the same parts and the same box. A small rest is divided into halves, without
a box. When one node is left, that is the black hole. No agent waits for the other, and
nothing is decided by time.

A whiteboard holds what is known of the links to its right and left, and how much was
left when the middle was claimed there, as `left told 5, middle 27, right safe`; 48
bytes suffice.
"""
from functools import lru_cache
from typing import Dict, Tuple

from client import Agent, Here, Spent, play

RIGHT = 0
LEFT = 1
SIDES = ("right", "left")
BOX = "middle"


def fields(board: str) -> Dict[str, str]:
    """What a whiteboard says: of a link `going`, `safe`, `told N` or `hole`; of the
    middle, how much was left."""
    return dict(part.split(" ", 1) for part in board.split(", ")) if board else {}


@lru_cache(None)
def walks(left: int) -> int:
    """Returns how often the safe nodes are crossed in the worst case, from a division
    of what is left until the end. A division into halves costs a way back and a way to
    the other agent; one into thirds also costs a way to the box and back."""
    return (
        left - 1
        if left < 3
        else min(2 + walks((left + 1) // 2), 3 + walks((left + 2) // 3))
    )


def parts(left: int) -> Tuple[int, int]:
    """Returns how much the right agent is to explore, and how large the middle is. The
    rest is for the left agent."""
    if left < 3 or 2 + walks((left + 1) // 2) <= 3 + walks((left + 2) // 3):
        return (left + 1) // 2, 0
    return (left + 1) // 3, left - 2 * ((left + 1) // 3)


class Walker:
    """An agent on a ring that knows its right port and its distance from home.

    It infers the ports from the way it came, so the labels need not agree around the
    ring.
    """

    def __init__(self, agent: Agent, here: Here) -> None:
        self._agent = agent
        self._right = 0
        self._at = 0
        self.board = here.board

    def go(self, to: int) -> None:
        """Goes to the node that is as many steps to the right of the home base, or to
        the left if negative."""
        while self._at != to:
            side = RIGHT if to > self._at else LEFT
            here = self._agent.depart(self._port(side))
            assert here.came is not None
            self._right = 1 - here.came if side == RIGHT else here.came
            self._at += 1 if side == RIGHT else -1
            self.board = here.board

    def write(self, field: str, value: str) -> bool:
        """Writes a field on the whiteboard, unless somebody wrote there since it was
        read; then reads it again."""
        field_values = {**fields(self.board), field: value}
        swap = self._agent.write(
            self.board,
            ", ".join(f"{name} {field_values[name]}" for name in sorted(field_values)),
        )
        self.board = swap.board
        return swap.written

    def accuse(self, side: int) -> None:
        self._agent.accuse(self._port(side))

    def _port(self, side: int) -> int:
        return self._right if side == RIGHT else 1 - self._right


class Search:
    """The search by one agent. It counts from the home base how many nodes of its side
    it knows to be safe, how many of the other, and how far it is to explore."""

    def __init__(self, walker: Walker, nodes: int) -> None:
        self.walker = walker
        self.nodes = nodes
        self.side = RIGHT
        self.mine = 0
        self.theirs = 0
        self.target = 0
        self.middle = 0
        self.box = 0
        self.label = ""

    def run(self) -> None:
        """Searches until the agent has accused."""
        self.begin()
        self.divide()
        while self.explore():
            if self.left() == 1:
                self.go(self.mine)
                return self.walker.accuse(self.side)
            if self.middle:
                self.claim()
            elif not self.follow():
                return

    def begin(self) -> None:
        """Chooses the right side, unless the other has chosen it before."""
        if self.walker.board or not self.walker.write(SIDES[RIGHT], "going"):
            self.side = LEFT

    def left(self) -> int:
        """Returns how many nodes are left, as far as the agent knows."""
        return self.nodes - 1 - self.mine - self.theirs

    def go(self, steps: int) -> None:
        """Goes to the node that is as many steps from the home base to the agent's
        side."""
        self.walker.go(steps if self.side == RIGHT else -steps)

    def divide(self) -> None:
        """Divides what is left. Both agents know the same, and so find the same parts
        and the same box."""
        left = self.left()
        is_right = self.side == RIGHT
        first, self.middle = parts(left)
        self.target = self.mine + (first if is_right else left - first - self.middle)
        right = (self.mine - self.theirs if is_right else self.theirs - self.mine) // 2
        self.box = right if is_right else -right
        self.label = str(left)

    def mark(self, value: str) -> bool:
        """Writes a mark for the link ahead, and reads the other agent's mark; returns
        whether the link is safe."""
        walker = self.walker
        ahead = SIDES[self.side]
        while True:
            value_there = fields(walker.board).get(ahead, "")
            if value_there == "hole":
                return False
            if value_there.startswith("told"):
                self.theirs = int(value_there.split()[1])
                self.divide()
            if value_there == value or walker.write(ahead, value):
                return True

    def explore(self) -> bool:
        """Explores the agent's part from its last safe node on; answers whether it is
        still searching."""
        while self.mine < self.target:
            self.go(self.mine)
            if not self.mark("going"):
                self.walker.accuse(self.side)
                return False
            self.go(self.mine + 1)
            self.go(self.mine)
            self.mark("safe")
            self.mine += 1
        return True

    def claim(self) -> None:
        """Goes to the box and claims the middle; or finds that the other has claimed
        it, and so has explored its part."""
        self.go(self.box)
        while fields(self.walker.board).get(BOX) != self.label:
            if self.walker.write(BOX, self.label):
                self.target += self.middle
                break
        else:
            self.theirs = self.nodes - 1 - self.mine - self.middle
        self.middle = 0

    def follow(self) -> bool:
        """Goes to the last safe node of the other side, and divides what is left;
        answers whether there is more than one node. Else that is the black hole, and
        the agent accuses the link to it."""
        walker = self.walker
        other = 1 - self.side
        self.go(-self.theirs)
        while True:
            if fields(walker.board).get(SIDES[other]) == "safe":
                self.theirs += 1
                self.go(-self.theirs)
                continue
            last = self.left() == 1
            if walker.write(SIDES[other], "hole" if last else f"told {self.mine}"):
                break
        if last:
            walker.accuse(other)
            return False
        self.divide()
        return True


def search(agent: Agent, key: str, nodes: int) -> None:
    """Enters, searches and accuses."""
    try:
        Search(Walker(agent, agent.enter(key)), nodes).run()
    except Spent:
        agent.leave()


if __name__ == "__main__":
    play(__doc__, search, 1)
