#!/usr/bin/env python3
"""Searches any network without a map, with one agent more than the black hole has
links.

    python3 chart.py HOST PORT KEY NODES LINKS

Start it once for each key. LINKS is the number of links of the network: if all nodes
have D links, NODES times D / 2. It is 0 if the agents only know that no node has more
than three.

All agents are alike, and share a chart on the whiteboard of the home base. It has a row
for each node that is known: the row and the port by which the node was found, and for
each of its ports whether it is free, claimed or done. Row 0 is the home base. On the
whiteboard of any other node stands its name: the row and the port by which it was
found.

An agent reads the chart, claims the first free port by a write, and goes there over the
ports by which the nodes on the way were found. It crosses the link. If the node behind
it has no name, the agent writes one. Then it goes back the way it came, and writes in
the chart that the port is done, with a row for the node if the chart has none. If no
port is free, it sleeps until the chart changes.

An agent that claims a port to the black hole does not come back. No port is claimed
twice, so the black hole destroys one agent for each of its links at most, and one is
left. A port that is done leads to a node of the chart.

The ports of all nodes together are two for each link. Once the chart has all nodes but
the black hole, so do the agents know how many links the black hole has: twice LINKS, but
for the ports of the chart. Where no node has more than three links the black hole has
two or three: two if the chart has an even number of ports. As soon as no more ports
than these are left that are not done, each of them leads to the black hole, and an
agent accuses the first.

The whiteboard of the home base needs six bytes for each node but the black hole, and
one byte for each port of these nodes. If it has fewer, a write is refused: the agent
says so on standard error and leaves. Others that wait for it use up their commands, as
each look counts, and leave then.

It is written as a step: `step` is given the memory of an agent and the reply to its
last command, and gives its new memory and its next command.
"""
import sys
from typing import Any, Callable, Dict, List, NamedTuple, Optional, Sequence, Tuple

from client import play_steps

# the states of a port
FREE = 0
CLAIMED = 1
DONE = 2
# how many characters a name has, and a row before the states of its ports
NAME = 4
HEAD = 6

Command = Dict[str, Any]
# a port of a node of the chart: its row, and the number of the port
Place = Tuple[int, int]


class Row(NamedTuple):
    """A node of the chart: the row and the port from which it was reached, and the
    states of its ports."""

    father: int
    port: int
    states: Tuple[int, ...]

    def text(self) -> str:
        states = "".join(map(character, self.states))
        return name_of(self.father, self.port) + number_text(len(self.states)) + states


def character(digit: int) -> str:
    return chr(ord(" ") + digit)


def number_text(number: int) -> str:
    """A number below 4,096 as two characters."""
    return character(number // 64) + character(number % 64)


def number_in(text: str) -> int:
    """The number that a text begins with."""
    return 64 * (ord(text[0]) - ord(" ")) + ord(text[1]) - ord(" ")


def name_of(row: int, port: int) -> str:
    """The name of the node that was found by this port of this row."""
    return number_text(row) + number_text(port)


def new_row(name: str, ports: int) -> str:
    """The row of a node that is new in the chart, as text."""
    return Row(number_in(name), number_in(name[2:]), (FREE,) * ports).text()


class Chart:
    """What the agents know of the network."""

    def __init__(self, rows: Sequence[Row]) -> None:
        self.rows = tuple(rows)

    @classmethod
    def read(cls, text: str, ports: int = 0) -> "Chart":
        """The chart that the home base shows. If it shows none, the home base alone is
        known, with this many ports."""
        rows: List[Row] = []
        rest = text or new_row(name_of(0, 0), ports)
        while rest:
            end = HEAD + number_in(rest[NAME:])
            states = tuple(ord(character) - ord(" ") for character in rest[HEAD:end])
            rows.append(Row(number_in(rest), number_in(rest[2:]), states))
            rest = rest[end:]
        return cls(rows)

    def text(self) -> str:
        return "".join(row.text() for row in self.rows)

    def ports(self, *states: int) -> List[Place]:
        """Returns the ports in one of these states."""
        return [
            (row, port)
            for row, node in enumerate(self.rows)
            for port, state in enumerate(node.states)
            if state in states
        ]

    def way(self, row: int) -> Tuple[int, ...]:
        """The ports by which an agent goes from the home base to the node of a row."""
        if row == 0:
            return ()
        return self.way(self.rows[row].father) + (self.rows[row].port,)

    def marked(self, row: int, port: int, state: int) -> "Chart":
        """The chart with this port in this state."""
        states = list(self.rows[row].states)
        states[port] = state
        rows = list(self.rows)
        rows[row] = rows[row]._replace(states=tuple(states))
        return Chart(rows)

    def joined(self, found: str) -> "Chart":
        """The chart with the row of a node that was found, unless the chart has it."""
        has_row = any(row.text()[:NAME] == found[:NAME] for row in self.rows[1:])
        return (
            self
            if has_row or not found
            else Chart([*self.rows, *Chart.read(found).rows])
        )


class Known(NamedTuple):
    """What an agent knows of the network: the number of nodes; and the number of links,
    or 0 if no node has more than three."""

    nodes: int
    links: int

    def is_decided(self, chart: Chart) -> bool:
        """Returns whether each port that is not done leads to the black hole."""
        ends = len(chart.ports(FREE, CLAIMED, DONE))
        links_of_hole = 2 * self.links - ends if self.links else 2 + ends % 2
        ports_left = len(chart.ports(FREE, CLAIMED))
        return len(chart.rows) == self.nodes - 1 and ports_left == links_of_hole


class Memory(NamedTuple):
    """What an agent holds."""

    doing: str = "enters"
    # what the whiteboard shows, at a node where the agent writes
    board: str = ""
    # the port that the agent has claimed, or is about to accuse
    row: int = 0
    port: int = 0
    # the ports of the way that is left, and of the way back
    ahead: Tuple[int, ...] = ()
    behind: Tuple[int, ...] = ()
    # how many ports the node behind the claimed one has, and then its row as text,
    # unless it is the home base
    ports: int = 0
    found: str = ""


Next = Tuple[Memory, Command]


def step(
    memory: Optional[Tuple[Any, ...]], reply: Dict[str, Any], nodes: int, links: int
) -> Tuple[Tuple[Any, ...], Command]:
    """What the agent holds and does next."""
    if "no" in reply:
        return memory or (), leave_refused(reply["no"])
    at = Memory() if memory is None else Memory(*memory)
    at = at._replace(board=reply.get("board", at.board))
    now, command = NEXT[at.doing](at, reply, Known(nodes, links))
    return tuple(now), command


def leave_refused(why: str) -> Command:
    """Leaves, as a command was refused."""
    if why == "long":
        print(
            "the whiteboard is too small for a chart of this network", file=sys.stderr
        )
    return {"do": "leave"}


def decides(at: Memory, reply: Dict[str, Any], known: Known) -> Next:
    """Accuses, claims or sleeps, as the chart says."""
    chart = Chart.read(at.board, reply.get("ports", 0))
    if known.is_decided(chart):
        row, port = chart.ports(FREE, CLAIMED)[0]
        return walk(Memory("accuses", row=row, port=port, ahead=chart.way(row)))
    free = chart.ports(FREE)
    if not free:
        return Memory("sleeps"), {"do": "sleep"}
    claim = Memory("claims", at.board, *free[0])
    return swap(claim, chart.marked(*free[0], CLAIMED).text())


def swap(at: Memory, put: str) -> Next:
    """Writes on the whiteboard, unless somebody wrote there since it was read."""
    command = {"do": "write", "expect": at.board, "put": put}
    return at._replace(board=put), command


def claims(at: Memory, reply: Dict[str, Any], known: Known) -> Next:
    """Goes to the port that it has claimed, or decides again."""
    if reply["ok"] == "changed":
        return decides(at, reply, known)
    route = Chart.read(at.board).way(at.row)
    return walk(at._replace(doing="goes", ahead=route + (at.port,)))


def walk(at: Memory) -> Next:
    """Goes on, and accuses where the way of an accuser ends."""
    if not at.ahead:
        return at, {"do": "accuse", "port": at.port}
    command = {"do": "depart", "port": at.ahead[0]}
    return at._replace(board="", ahead=at.ahead[1:]), command


def goes(at: Memory, reply: Dict[str, Any], known: Known) -> Next:
    """Notes the label by which it comes back. Behind the claimed port it names the
    node, if that has no name."""
    at = at._replace(behind=(reply["from"], *at.behind))
    if at.ahead:
        return walk(at)
    at = at._replace(ports=reply["ports"])
    if at.board:
        return learns(at, reply, known)
    return swap(at._replace(doing="names"), name_of(at.row, at.port))


def learns(at: Memory, _reply: Dict[str, Any], _known: Known) -> Next:
    """Takes the name of the node, which is what its whiteboard shows, and turns back.
    The home base shows the chart, which is longer than a name."""
    name = new_row(at.board, at.ports) if len(at.board) == NAME else ""
    return back(at._replace(doing="returns", ports=0, found=name))


def back(at: Memory) -> Next:
    command = {"do": "depart", "port": at.behind[0]}
    return at._replace(board="", behind=at.behind[1:]), command


def returns(at: Memory, _reply: Dict[str, Any], _known: Known) -> Next:
    """Goes back to the home base, and writes in the chart what it found."""
    if at.behind:
        return back(at)
    chart = Chart.read(at.board).marked(at.row, at.port, DONE).joined(at.found)
    return swap(at._replace(doing="reports"), chart.text())


def reports(at: Memory, reply: Dict[str, Any], known: Known) -> Next:
    """Decides by the chart that it wrote, or writes again."""
    return (decides if reply["ok"] == "written" else returns)(at, reply, known)


def sleeps(_at: Memory, _reply: Dict[str, Any], _known: Known) -> Next:
    """Looks at the chart when it wakes."""
    return Memory("looks"), {"do": "look"}


NEXT: Dict[str, Callable[[Memory, Dict[str, Any], Known], Next]] = {
    "enters": decides,
    "sleeps": sleeps,
    "looks": decides,
    "claims": claims,
    "goes": goes,
    "names": learns,
    "returns": returns,
    "reports": reports,
    "accuses": lambda at, _reply, _known: walk(at),
}


if __name__ == "__main__":
    play_steps(__doc__, step, 2)
