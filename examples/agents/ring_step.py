#!/usr/bin/env python3
"""Searches a ring as ring.py does, written as a step: what an agent knows is a plain
value.

    python3 ring_step.py HOST PORT KEY NODES

`step` is given the agent's memory and the server's reply to its last command, and gives
its new memory and its next command. An agent that keeps nothing else is explored by its
memory, so `./arena-lab explore` tries larger rings with this file than with ring.py,
whose agents it tells apart by all that they have met. Command for command both do the
same; ring.py says how the search goes.
"""
from typing import Any, Callable, Dict, NamedTuple, Optional, Tuple

from client import play_steps
from ring import LEFT, RIGHT, field, with_field

Command = Dict[str, Any]


class Memory(NamedTuple):
    """What an agent knows."""

    doing: str = "enters"
    # the side that it explores
    side: int = RIGHT
    # how many nodes are safe on its own side, and on the other one
    mine: int = 0
    theirs: int = 0
    # how many nodes of its own side it is to explore
    target: int = 0
    # port to the right at the current node
    right: int = 0
    # what the whiteboard says
    board: str = ""
    # how many steps of a longer way are left
    steps: int = 0

    def left(self, nodes: int) -> int:
        """Returns how many nodes are left, as far as the agent knows."""
        return nodes - 1 - self.mine - self.theirs


Next = Tuple[Memory, Command]


def step(
    memory: Optional[Tuple[Any, ...]], reply: Dict[str, Any], nodes: int
) -> Tuple[Tuple[Any, ...], Command]:
    """What the agent knows and does next."""
    if "no" in reply:
        # all commands are used up
        return memory or (), {"do": "leave"}
    memory_now = Memory() if memory is None else first_memory(Memory(*memory), reply)
    now, command = NEXT[memory_now.doing](
        memory_now._replace(board=reply.get("board", memory_now.board)), reply, nodes
    )
    return tuple(now), command


def first_memory(at: Memory, reply: Dict[str, Any]) -> Memory:
    """The memory of an agent that knows, once it has arrived, by which port it goes to
    the right."""
    if reply["ok"] != "here":
        return at
    heading = at.side if at.doing in ("goes out", "goes on", "returns") else 1 - at.side
    return at._replace(right=1 - reply["from"] if heading == RIGHT else reply["from"])


def walk(at: Memory, side: int, doing: str) -> Next:
    return at._replace(doing=doing, board=""), {"do": "depart", "port": port(at, side)}


def port(at: Memory, side: int) -> int:
    return at.right if side == RIGHT else 1 - at.right


def swap(at: Memory, put: str, doing: str) -> Next:
    """Writes on the whiteboard, unless somebody wrote there since it was read."""
    return at._replace(doing=doing, board=put), {
        "do": "write",
        "expect": at.board,
        "put": put,
    }


def accuse(at: Memory, side: int) -> Next:
    return at, {"do": "accuse", "port": port(at, side)}


def enters(at: Memory, _reply: Dict[str, Any], nodes: int) -> Next:
    """Chooses the right side, unless the other has chosen it before."""
    return (
        sets_out(at._replace(side=LEFT), nodes)
        if at.board
        else swap(at, with_field("", RIGHT, "going"), "chooses")
    )


def chooses(at: Memory, reply: Dict[str, Any], nodes: int) -> Next:
    return sets_out(
        at._replace(side=RIGHT if reply["ok"] == "written" else LEFT), nodes
    )


def sets_out(at: Memory, nodes: int) -> Next:
    return explores(at._replace(target=(nodes - at.side) // 2), nodes)


def explores(at: Memory, nodes: int) -> Next:
    """Explores the agent's half from its last safe node on, and then goes to the last
    safe node of the other side."""
    if at.mine < at.target:
        return marks(at, "going", nodes)
    if at.left(nodes) == 1:
        return accuse(at, at.side)
    return crosses(at._replace(theirs=0, steps=at.mine), {}, nodes)


def marks(at: Memory, value: str, nodes: int) -> Next:
    """Writes this of the link ahead, and takes what the other wrote there."""
    value_there = field(at.board, at.side)
    if value_there == "hole":
        return accuse(at, at.side)
    if value_there.startswith("told"):
        at = at._replace(theirs=int(value_there.split()[1]))
        at = at._replace(target=at.mine + (at.left(nodes) + 1) // 2)
    return (
        write_mark(at, value)
        if value_there == value
        else swap(at, with_field(at.board, at.side, value), value)
    )


def write_mark(at: Memory, value: str) -> Next:
    if value == "going":
        return walk(at, at.side, "goes out")
    return walk(at._replace(mine=at.mine + 1), at.side, "goes on")


def marks_if(value: str) -> Callable[[Memory, Dict[str, Any], int], Next]:
    """Continues if the write succeeded, else tries again."""
    return (
        lambda at, reply, nodes: write_mark(at, value)
        if reply["ok"] == "written"
        else marks(at, value, nodes)
    )


def crosses(at: Memory, _reply: Dict[str, Any], nodes: int) -> Next:
    """Goes over the safe nodes of the other side, and writes behind them how far its
    own side is safe."""
    other = 1 - at.side
    if at.steps:
        return walk(at._replace(steps=at.steps - 1), other, "crosses")
    if field(at.board, other) == "safe":
        return walk(at._replace(theirs=at.theirs + 1), other, "crosses")
    told = "hole" if at.left(nodes) == 1 else f"told {at.mine}"
    return swap(at, with_field(at.board, other, told), "tells")


def tells(at: Memory, reply: Dict[str, Any], nodes: int) -> Next:
    """Divides what is left, or accuses the link to the last node."""
    if reply["ok"] != "written":
        return crosses(at, reply, nodes)
    if at.left(nodes) == 1:
        return accuse(at, 1 - at.side)
    return returns(
        at._replace(target=at.mine + at.left(nodes) // 2, steps=at.theirs + at.mine),
        reply,
        nodes,
    )


def returns(at: Memory, _reply: Dict[str, Any], nodes: int) -> Next:
    """Goes back to its last safe node."""
    return (
        walk(at._replace(steps=at.steps - 1), at.side, "returns")
        if at.steps
        else explores(at, nodes)
    )


NEXT: Dict[str, Callable[[Memory, Dict[str, Any], int], Next]] = {
    "enters": enters,
    "chooses": chooses,
    "going": marks_if("going"),
    "safe": marks_if("safe"),
    "goes out": lambda at, _reply, _nodes: walk(at, 1 - at.side, "comes back"),
    "comes back": lambda at, _reply, nodes: marks(at, "safe", nodes),
    "goes on": lambda at, _reply, nodes: explores(at, nodes),
    "crosses": crosses,
    "tells": tells,
    "returns": returns,
}


if __name__ == "__main__":
    play_steps(__doc__, step, 1)
