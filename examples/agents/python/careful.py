#!/usr/bin/env python3
"""Searches a ring with two agents that know its number of nodes.

    python3 careful.py HOST PORT KEY NODES
    ARENA_HOST=HOST ARENA_PORT=PORT ARENA_KEY=KEY python3 careful.py NODES

Start it twice, with the keys of both agents. The agent that writes first at the home
base explores the side of port 0, the other the side of port 1. Each goes out to the
next unexplored node of its side and comes back, and writes at the home base how many
nodes of each side are safe, as "3 1": three on the side of port 0, one on the other.
Once one node is left, that is the black hole. Nothing is decided by time.
"""
import os
import sys
from typing import List, Tuple

from client import Agent, Here, MatchOver


def board_of(safe: List[int]) -> str:
    return f"{safe[0]} {safe[1]}"


def safe_on(board: str) -> List[int]:
    """Returns how many nodes of each side are safe, as the whiteboard of the home base
    says."""
    return [int(part) for part in board.split()]


def choose_side(agent: Agent, here: Here) -> Tuple[int, str]:
    """The side of this agent, and what stands at the home base then."""
    if here.board:
        return 1, here.board
    swap = agent.write("", board_of([0, 0]))
    return (0 if swap.written else 1), swap.board


def back(here: Here) -> int:
    """The port by which the agent came."""
    assert here.came is not None
    return here.came


def walk(agent: Agent, port: int, links: int) -> Here:
    """Goes on in one direction over this many links, at least one."""
    here = agent.depart(port)
    for _ in range(links - 1):
        here = agent.depart(1 - back(here))
    return here


def note(agent: Agent, side: int, mine: int, board: str) -> str:
    """Writes how many nodes of this side are safe; what the other agent wrote stays."""
    while True:
        safe = safe_on(board)
        safe[side] = mine
        swap = agent.write(board, board_of(safe))
        board = swap.board
        if swap.written:
            return board


def search(agent: Agent, key: str, nodes: int) -> None:
    """Enters and searches, until the agent has accused. The lab calls it so, by --agent
    "careful.py {nodes}"."""
    side, board = choose_side(agent, agent.enter(key))
    mine = 0
    while True:
        theirs = safe_on(board)[1 - side]
        ahead = side if mine == 0 else 1 - back(walk(agent, side, mine))
        if mine + theirs == nodes - 2:
            return agent.accuse(ahead)
        here = agent.depart(ahead)
        mine += 1
        board = note(agent, side, mine, walk(agent, back(here), mine).board)


def words_of(arguments: List[str]) -> List[str]:
    """HOST, PORT, KEY and NODES. Of the first three, those that are not given are taken
    from the environment."""
    if len(arguments) == 1:
        environment = os.environ.get
        return [
            environment("ARENA_HOST", "127.0.0.1"),
            environment("ARENA_PORT", "4000"),
            environment("ARENA_KEY", ""),
            *arguments,
        ]
    return arguments


def main(arguments: List[str]) -> int:
    words = words_of(arguments)
    if len(words) != 4 or not words[1].isdecimal():
        print((__doc__ or "").strip(), file=sys.stderr)
        return 2
    host, port, key, nodes = words
    try:
        search(Agent.connect(host, int(port)), key, int(nodes))
    except MatchOver:
        print("the match is over", file=sys.stderr)
    except OSError as fault:
        print(f"{host} port {port}: {fault}: is a server started?", file=sys.stderr)
        return 1
    return 0


if __name__ == "__main__":
    sys.exit(main(sys.argv[1:]))
