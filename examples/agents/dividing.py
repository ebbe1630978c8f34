#!/usr/bin/env python3
"""Searches any network with two agents that have its map, within order n log n moves.

    python3 dividing.py HOST PORT KEY NETWORK HOME

NETWORK is the file of the network, which does not say where the black hole is, and HOME
the number of the home base. Start it twice, with the keys of both agents. The network has
one black hole, and whiteboards hold at least 5 bytes.

Each agent explores its part of the nodes by cautious walks: it crosses a link to a new
node, returns, and marks the link with the number of nodes that it has explored. An agent
that has explored its part follows the itinerary of its partner over the marked links. At
the first unmarked link it writes a division on the whiteboard and explores half of the
unexplored nodes; its partner keeps the half with the node behind that link, and reads
the division when it returns. If one node is unexplored, that node is the black hole.

`dividing_plan.py` has the plan. docs/PROTOCOLS.md says what is proved of the protocol,
and of no program in Python.
"""
from typing import NamedTuple, Sequence, Tuple

from client import Agent, Spent, TooLong, play_words
from dividing_plan import Divisions, Itinerary, Link, Plan
from known_map import links_in


class Board(NamedTuple):
    """The numbers that a whiteboard shows: how many nodes the agent of each side had
    explored when it last wrote here, and how many divisions there were when one was last
    written here."""

    counts: Tuple[int, int] = (0, 0)
    divisions: int = 0

    def text(self) -> str:
        """Five characters: two for each side in base 64, and one for the divisions."""
        digits = [digit for count in self.counts for digit in divmod(count, 64)]
        return "".join(chr(32 + digit) for digit in (*digits, self.divisions))

    def with_count(self, side: int, count: int) -> "Board":
        counts = (count, self.counts[1]) if side == 0 else (self.counts[0], count)
        return self._replace(counts=counts)


def board_in(text: str) -> Board:
    """The numbers of a whiteboard's text; all are 0 if nobody has written."""
    if not text:
        return Board()
    a, b, c, d, divisions = (ord(letter) - 32 for letter in text)
    return Board((64 * a + b, 64 * c + d), divisions)


class Divider:
    """One agent: its side, the divisions that it knows, and the text in front of it."""

    def __init__(self, agent: Agent, plan: Plan, text: str) -> None:
        self.agent = agent
        self.plan = plan
        self.text = text
        self.side = 0
        self.divisions: Divisions = ()

    def run(self) -> None:
        """Searches until the agent has accused. The agent that writes first at the home
        base has side 0."""
        if self.text or not self.write(Board()):
            self.side = 1
        self.explore()
        while not self.follow():
            self.explore()

    def itinerary(self, side: int) -> Itinerary:
        return self.plan.stage(self.divisions).itineraries[side]

    def explore(self) -> None:
        """Follows the agent's own itinerary to its end."""
        step = 0
        while step < len(self.itinerary(self.side)):
            action = self.itinerary(self.side)[step]
            self.depart(action.port)
            if action.is_new:
                self.depart(action.back)
                step = self.mark(step)
            step += 1

    def mark(self, step: int) -> int:
        """Marks the new node of a step and returns the step. If divisions were written
        here meanwhile, the agent takes them over, and is at step 0 of a new itinerary.
        """
        while True:
            while len(self.divisions) < board_in(self.text).divisions:
                self.divisions += ((self.side, step),)
                step = 0
            count = self.plan.count(self.divisions, self.side, step)
            if self.write(board_in(self.text).with_count(self.side, count)):
                return step

    def follow(self) -> bool:
        """Follows the partner's itinerary to the first unmarked link. Returns whether
        the agent has accused that link; otherwise it has written a division there."""
        partner = 1 - self.side
        for step, action in enumerate(self.itinerary(partner)):
            if not action.is_new:
                self.depart(action.port)
                continue
            count = self.plan.count(self.divisions, partner, step)
            while board_in(self.text).counts[partner] < count:
                if self.plan.remaining(self.divisions, partner, step) == 1:
                    self.agent.accuse(action.port)
                    return True
                division = len(self.divisions) + 1
                if self.write(board_in(self.text)._replace(divisions=division)):
                    self.divisions += ((partner, step),)
                    return False
        self.agent.leave()
        return True

    def depart(self, port: int) -> None:
        self.text = self.agent.depart(port).board

    def write(self, board: Board) -> bool:
        """Writes on the whiteboard, unless its text has changed since it was read.
        Returns whether the agent has written."""
        swap = self.agent.write(self.text, board.text())
        self.text = swap.board
        return swap.written


def search(agent: Agent, key: str, network: Sequence[Link], home: int) -> None:
    """Enters, searches and accuses."""
    try:
        Divider(agent, Plan(network, home), agent.enter(key).board).run()
    except (Spent, TooLong):
        agent.leave()


if __name__ == "__main__":
    play_words(__doc__, search, links_in, int)
