"""Plans for two agents that search a network with a map within order n log n moves.

A plan gives each of the two agents an itinerary for each stage of the search. A stage
begins with a division of the unexplored nodes. Both agents compute the same stages from
the map and the divisions so far, so a whiteboard needs to show only how many divisions
there are.

The order of the nodes is an st-numbering with the home base at both ends: each other node
has a neighbour that comes earlier, and one that comes later or is the home base. So each
front and each rear of the unexplored nodes can be explored one node after the other,
whatever was explored before. The crate `bhs_protocols_divided` proves that each network
of a file has such a plan; this one is computed in another way, and tested.
"""
from collections import deque
from typing import Dict, FrozenSet, Iterable, List, NamedTuple, Sequence, Tuple

Nodes = FrozenSet[int]
Link = Tuple[int, int, int, int]
# (side, step): the agent of this side had completed the steps before, and explored no
# node beyond
Division = Tuple[int, int]
Divisions = Tuple[Division, ...]


class NotBiconnectedError(Exception):
    """Two agents cannot search the network: it is not connected without some node."""


class Action(NamedTuple):
    """A step of an itinerary. The agent departs by `port`, to a node whose port `back`
    leads back. It walks there, or it explores a new node: it returns at once."""

    is_new: bool
    port: int
    back: int
    node: int


Itinerary = Tuple[Action, ...]


class Stage(NamedTuple):
    """Where both itineraries begin, which nodes are safe, and the part and the itinerary
    of each side."""

    root: int
    safe: Nodes
    parts: Tuple[Tuple[int, ...], Tuple[int, ...]]
    itineraries: Tuple[Itinerary, Itinerary]


def new_nodes(actions: Iterable[Action]) -> List[int]:
    return [action.node for action in actions if action.is_new]


class Plan:
    """The stages of a search from a home base, computed when they are needed."""

    def __init__(self, links: Sequence[Link], home: int) -> None:
        size = 1 + max(max(v, w) for v, _, w, _ in links)
        # ports[v][w] is the port of v that leads to w
        self.ports: List[Dict[int, int]] = [{} for _ in range(size)]
        for v, p, w, q in links:
            self.ports[v][w] = p
            self.ports[w][v] = q
        self.order = st_order([sorted(row) for row in self.ports], home)
        self.rank = {node: number for number, node in enumerate(self.order)}
        rest = tuple(self.order[1:])
        half = (len(rest) + 1) // 2
        parts = (rest[:half], rest[half:])
        self.stages = {(): self._stage(home, frozenset([home]), parts, (None, None))}

    def stage(self, divisions: Divisions) -> Stage:
        """The stage after these divisions, the newest of which comes last."""
        if divisions not in self.stages:
            before = self.stage(divisions[:-1])
            self.stages[divisions] = self._divided(before, *divisions[-1])
        return self.stages[divisions]

    def _divided(self, stage: Stage, side: int, step: int) -> Stage:
        """The stage after a division. The agent of this side keeps the larger half of
        the unexplored nodes, the one with the node of its step."""
        past = stage.itineraries[side][:step]
        action = stage.itineraries[side][step]
        safe = stage.safe.union(stage.parts[1 - side], new_nodes(past))
        rest = [node for node in self.order if node not in safe]
        half = (len(rest) + 1) // 2
        keeps = rest[:half]
        if action.node not in keeps:
            keeps = rest[-half:]
        takes = [node for node in rest if node not in keeps]
        walks = [step.node for step in past if not step.is_new]
        root = walks[-1] if walks else stage.root
        parts = (tuple(keeps), tuple(takes))
        firsts = (action.node, None)
        if side == 1:
            parts, firsts = parts[::-1], firsts[::-1]
        return self._stage(root, safe, parts, firsts)

    def _stage(
        self,
        root: int,
        safe: Nodes,
        parts: Tuple[Tuple[int, ...], Tuple[int, ...]],
        firsts: Tuple["int | None", "int | None"],
    ) -> Stage:
        itineraries = [
            self._itinerary(root, safe, part, first)
            for part, first in zip(parts, firsts)
        ]
        return Stage(root, safe, parts, (itineraries[0], itineraries[1]))

    def _itinerary(
        self, root: int, safe: Nodes, part: Sequence[int], first: "int | None"
    ) -> Itinerary:
        """A closed walk from the root around a tree over safe nodes and the part. An agent
        explores each node of the part from its parent, and visits only nodes with
        children. The node `first`, a neighbour of the root, is explored first.
        """
        children = self._tree(root, safe, part, first)
        new = frozenset(part)
        actions: List[Action] = []
        stack = [(root, iter(children[root]))]
        while stack:
            node, ahead = stack[-1]
            child = next(ahead, None)
            if child is None:
                stack.pop()
                if stack:
                    actions.append(self._action(False, node, stack[-1][0]))
                continue
            if child in new:
                actions.append(self._action(True, node, child))
            if children[child]:
                actions.append(self._action(False, node, child))
                stack.append((child, iter(children[child])))
        return tuple(actions)

    def _action(self, is_new: bool, start: int, end: int) -> Action:
        return Action(is_new, self.ports[start][end], self.ports[end][start], end)

    def _tree(
        self, root: int, safe: Nodes, part: Sequence[int], first: "int | None"
    ) -> Dict[int, List[int]]:
        """The children of each node of a tree that reaches the nodes of a part: the
        nearest one that is missing is joined by a shortest path, again and again."""
        children: Dict[int, List[int]] = {root: []}
        missing = set(part)
        if first is not None:
            children[root].append(first)
            children[first] = []
            missing.discard(first)
        inside = safe.union(part)
        while missing:
            path = self._path(children, inside, missing)
            for node, child in zip(path, path[1:]):
                children[node].append(child)
                children[child] = []
            missing.difference_update(path)
        return children

    def _path(self, tree: Iterable[int], inside: Nodes, ends: "set[int]") -> List[int]:
        """A shortest path from the tree to one of these nodes, over nodes inside."""
        parents: Dict[int, "int | None"] = {node: None for node in tree}
        queue = deque(parents)
        while queue:
            node = queue.popleft()
            for far in sorted(self.ports[node], key=self.rank.__getitem__):
                if far not in inside or far in parents:
                    continue
                parents[far] = node
                if far in ends:
                    return path_from(parents, far)
                queue.append(far)
        raise NotBiconnectedError("some nodes are not joined to the safe ones")

    def explored_before(self, divisions: Divisions, side: int) -> int:
        """How many nodes the agent of a side has explored before a stage."""
        total = 0
        for number, (divider, step) in enumerate(divisions):
            actions = self.stage(divisions[:number]).itineraries[side]
            total += len(new_nodes(actions[:step] if side == divider else actions))
        return total

    def count(self, divisions: Divisions, side: int, step: int) -> int:
        """How many nodes the agent of a side has explored once it has explored the new
        node of this step."""
        actions = self.stage(divisions).itineraries[side][:step]
        return self.explored_before(divisions, side) + len(new_nodes(actions)) + 1

    def remaining(self, divisions: Divisions, side: int, step: int) -> int:
        """How many nodes are unexplored when the agent of this side stands before this
        step and its partner has explored its part."""
        return len(new_nodes(self.stage(divisions).itineraries[side][step:]))


def path_from(parents: Dict[int, "int | None"], end: int) -> List[int]:
    """The path that leads to a node from the node without a parent."""
    path = [end]
    while (parent := parents[path[-1]]) is not None:
        path.append(parent)
    return path[::-1]


def st_order(neighbours: Sequence[Sequence[int]], home: int) -> List[int]:
    """All nodes, the home base first. Each other node has a neighbour that comes
    earlier, and one that comes later or is the home base."""
    order = [home, neighbours[home][0]]
    while len(order) < len(neighbours):
        start = next(
            (node for node in order if not set(neighbours[node]) <= set(order)), None
        )
        if start is None:
            raise NotBiconnectedError("the network is not connected")
        ear = new_ear(neighbours, order, start)
        spot = order.index(start) + 1
        order[spot:spot] = ear
    return order


def new_ear(
    neighbours: Sequence[Sequence[int]], order: Sequence[int], start: int
) -> List[int]:
    """New nodes on a shortest path from a node of the order back to another one."""
    order_set = set(order)
    first = next(node for node in neighbours[start] if node not in order_set)
    parents: Dict[int, "int | None"] = {first: None}
    queue = deque([first])
    while queue:
        node = queue.popleft()
        for far in neighbours[node]:
            if far in order_set and far != start:
                return path_from(parents, node)
            if far not in order_set and far not in parents:
                parents[far] = node
                queue.append(far)
    raise NotBiconnectedError(f"without node {start} the network is not connected")


def max_moves(nodes: int) -> int:
    """The moves that suffice on each network of this size under every schedule, as
    `two_agents_divide` of `bhs_protocols_divided` says."""
    rounds = (nodes - 2).bit_length()
    return 6 * (nodes - 2) * rounds + 2 * (nodes - 1)
