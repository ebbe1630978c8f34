#!/usr/bin/env python3
"""Searches a ring with two agents that know its number of nodes, each going out and
back from the home base.

    python3 shuttle.py HOST PORT KEY NODES SIDE

Start it twice, with the sides 0 and 1. It does what the machine of
crates/bhs_protocols/specs/Shuttle.antt does, whose proof holds for rings of all sizes;
that this program does so is not proved.
"""
from client import Agent, Here, play


def text_of(right: int, left: int) -> str:
    if right == left == 0:
        return ""
    return "".join(
        chr(32 + digit) for digit in (right // 64, right % 64, left // 64, left % 64)
    )


def numbers_in(board: str) -> "tuple[int, int]":
    if not board:
        return 0, 0
    digits = [ord(character) - 32 for character in board]
    return digits[0] * 64 + digits[1], digits[2] * 64 + digits[3]


def search(agent: Agent, key: str, nodes: int, side: int) -> None:
    here: Here = agent.enter(key)
    mine = 0
    theirs = numbers_in(here.board)[1 - side]
    while True:
        # out, as far as the next node or the last safe one
        port = side
        for step in range(mine + 1):
            if step == mine and mine + theirs + 2 == nodes:
                return agent.accuse(port)
            here = agent.depart(port)
            port = 1 - here.came
        # and back
        port = 1 - port
        for _ in range(mine + 1):
            here = agent.depart(port)
            port = 1 - here.came
        theirs = numbers_in(here.board)[1 - side]
        while True:
            old = (mine, theirs)
            new = (mine + 1, theirs)
            swap = agent.write(
                text_of(*old[:: 1 - 2 * side]), text_of(*new[:: 1 - 2 * side])
            )
            if swap.written:
                break
            theirs = numbers_in(swap.board)[1 - side]
        mine += 1


if __name__ == "__main__":
    play(__doc__, search, 2)
