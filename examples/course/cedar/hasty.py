#!/usr/bin/env python3
"""Searches a ring as ring.py does, but with a mistake: when the other agent writes on a
whiteboard between this agent's reading and its writing, it does not look again.

    python3 hasty.py HOST PORT KEY NODES
"""
from client import play
from reads_once import search

if __name__ == "__main__":
    play(__doc__, search, 1)
