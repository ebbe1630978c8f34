#!/usr/bin/env python3
"""Searches a ring with two agents that know its number of nodes and divide what is left
into halves.

    python3 halves.py HOST PORT KEY NODES SIDE

Start it twice, with the sides 0 and 1. It does what the machine of
crates/bhs_protocols/specs/Halves.antt does, step by step: `does` says what an agent
does that holds this, and `after` what it holds after a reply.
"""
from typing import NamedTuple, Tuple

from client import Agent, play


# what an agent is about once it has left the node
ON_LINK = {
    "Turns": "Returns",
    "GoesHome": "NearsHome",
    "Follows": "Passes",
    "ComesHome": "NearsBack",
}


class Memory(NamedTuple):
    """The side of an agent, how many nodes of it are safe, how many of the other side
    were when they divided, how far the agent is to explore, what the whiteboard said of
    both sides that it read last, and what it is about, with how many steps it is from
    the home base, and the port by which it goes on."""

    side: int
    mine: int
    theirs: int
    target: int
    own: int = 0
    other: int = 0
    phase: str = "Begins"
    steps: int = 0
    port: int = 0

    def to(self, phase: str, steps: int = 0, port: int = 0) -> "Memory":
        return self._replace(phase=phase, steps=steps, port=port)


def text_by(side: int, own: int, other: int) -> str:
    right, left = (own, other) if side == 0 else (other, own)
    if right == left == 0:
        return ""
    return "".join(
        chr(32 + digit) for digit in (right // 64, right % 64, left // 64, left % 64)
    )


def marks_in(side: int, board: str) -> Tuple[int, int]:
    digits = [ord(character) - 32 for character in board] or [0, 0, 0, 0]
    right = digits[0] * 64 + digits[1]
    left = digits[2] * 64 + digits[3]
    return (right, left) if side == 0 else (left, right)


def start(n: int, side: int) -> Memory:
    return Memory(side, 0, 0, n // 2 if side == 0 else (n - 1) // 2)


def is_done(m: Memory) -> bool:
    return m.steps == m.mine == m.target


def does(n: int, m: Memory) -> tuple:
    if m.phase == "Begins":
        return ("enter",)
    if m.phase == "GoesOut" and is_done(m):
        return (
            ("accuse", m.port)
            if n - 1 - m.mine - m.theirs == 1
            else ("depart", 1 - m.port)
        )
    if m.phase == "Writes":
        return ("write", text_by(m.side, m.own, m.other), text_by(m.side, 1, m.other))
    if m.phase == "Tells":
        if n - 1 - m.mine - m.steps == 1:
            return ("accuse", m.port)
        return (
            "write",
            text_by(m.side, m.own, m.other),
            text_by(m.side, m.own, m.mine + 2),
        )
    return ("depart", m.port)


def read_board(m: Memory, board: str) -> Memory:
    own, other = marks_in(m.side, board)
    return m._replace(own=own, other=other)


def learn(n: int, m: Memory, port: int, board: str) -> Memory:
    m = read_board(m, board).to("Writes", 0, port)
    if m.own < 2:
        return m
    return m._replace(theirs=m.own - 2, target=m.mine + (n - m.mine - (m.own - 2)) // 2)


def follows(m: Memory, steps: int, port: int, board: str) -> Memory:
    m = read_board(m, board)
    return m.to("Follows" if m.other == 1 else "Tells", steps, port)


def goes_back(m: Memory, steps: int, port: int) -> Memory:
    return m.to("ComesHome" if steps else "GoesOut", steps, port)


def after_gone(m: Memory) -> Memory:
    if m.phase == "GoesOut":
        if is_done(m):
            return m.to("NearsHome", m.steps)
        return m.to("Tries") if m.steps == m.mine else m.to("Leaves", m.steps)
    return m.to(ON_LINK[m.phase], m.steps)


def after_here(n: int, m: Memory, label: int, board: str) -> Memory:
    if m.phase == "Leaves":
        return m.to("GoesOut", m.steps + 1, 1 - label)
    if m.phase == "Tries":
        return m.to("Turns", 0, label)
    if m.phase == "Returns":
        return learn(n, m, label, board)
    if m.phase == "NearsHome":
        if m.steps == 1:
            return follows(m, 0, 1 - label, board)
        return m.to("GoesHome", m.steps - 1, 1 - label)
    if m.phase == "Passes":
        return follows(m, m.steps + 1, 1 - label, board)
    return goes_back(m, m.steps - 1, 1 - label)


def after_written(n: int, m: Memory) -> Memory:
    if m.phase == "Writes":
        return m._replace(mine=m.mine + 1).to("GoesOut", m.mine, m.port)
    left = n - 1 - m.mine - m.steps
    return goes_back(
        m._replace(theirs=m.steps, target=m.mine + left // 2), m.steps, 1 - m.port
    )


def after_changed(n: int, m: Memory, board: str) -> Memory:
    return (
        learn(n, m, m.port, board)
        if m.phase == "Writes"
        else follows(m, m.steps, m.port, board)
    )


def search(agent: Agent, key: str, nodes: int, side: int) -> None:
    memory = start(nodes, side)
    while True:
        step = does(nodes, memory)
        if step[0] == "enter":
            agent.enter(key)
            memory = memory.to("GoesOut", 0, side)
        elif step[0] == "accuse":
            return agent.accuse(step[1])
        elif step[0] == "write":
            swap = agent.write(step[1], step[2])
            memory = (
                after_written(nodes, memory)
                if swap.written
                else after_changed(nodes, memory, swap.board)
            )
        else:
            memory = after_gone(memory)
            here = agent.depart(step[1])
            assert here.came is not None
            memory = after_here(nodes, memory, here.came, here.board)


if __name__ == "__main__":
    play(__doc__, search, 2)
