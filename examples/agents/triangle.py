#!/usr/bin/env python3
"""Searches a ring of three nodes with two agents, without whiteboards.

    python3 triangle.py HOST PORT KEY SIDE

Start it twice, with the sides 0 and 1. Each agent goes to the next node on its side and
comes back; the black hole is on the other side then, and it accuses the link there.
"""
from client import Agent, play


def search(agent: Agent, key: str, side: int) -> None:
    agent.enter(key)
    here = agent.depart(side)
    agent.depart(here.came)
    agent.accuse(1 - side)


if __name__ == "__main__":
    play(__doc__, search, 1)
