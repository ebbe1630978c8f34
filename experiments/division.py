"""Worst cases of searches on a ring that divide what is left: a dynamic program over
how much that is.

    /usr/bin/python3 -m experiments.division table 9 16 27 32 64 81 128 243
    /usr/bin/python3 -m experiments.division attain 9 16 27     plays the worst case of ring3.py with its own code

Two agents have divided when L of n nodes are left. The safe nodes between the agents
are a way of D = n - 1 - L links. The left agent is to explore s nodes, the right one t,
and m in the middle are for the first that says so at the box, which is p links from the
left agent and q = D - p from the right one. The adversary says who is first and how far
the other comes meanwhile. An agent that goes on costs three moves a node: to it, back
and to it again. It makes the last of these only when it goes on, so a way to somewhere
and back is two moves shorter. V(L) is the most that ways cost from the division on,
with the way of the divider back, and M(x) that of x nodes of which the adversary first
lets i go:

    M(x) = max over i < x of i + V(x - i),       V(1) = 0,       V(L) = D + the least, over divisions, of the most of
    m = 0:  the right agent is first    0 if s = 1, else D + t - 2 + M(s)
            the left agent is first     0 if t = 1, else D + s - 2 + M(t)
    m > 0:  the right agent takes the middle, 2 (q + t) - 2, and then
               finishes it first        0 if s = 1, else D + t + m - 2 + M(s)
               the left one is first    if m = 1: 2 (p + s) - 2, else D + s + t - 2 + M(m)
            the left agent takes it: the same with s, p and t, q exchanged

A search makes 3 (n - 2) + 1 + V(n - 1) moves, with D = 0 at first; it starts at the
home base.
"""
import math
import sys
from typing import Callable, List, NamedTuple, Optional, Tuple

import numpy as np

from experiments.turns import Run, play_search
from arena_lab.play.agent_files import AGENTS, load_module
from arena_lab.search.ring_bounds import most_moves

ring3 = load_module(AGENTS / "ring3.py")

LEFT = 1
RIGHT = 0
BACK = 2


class Division(NamedTuple):
    """The nodes assigned to each agent and to the middle, and the distance of the box
    from the left agent."""

    s: int
    m: int
    t: int
    p: int


class Case(NamedTuple):
    """One answer of the adversary: what ways cost until the next division or the end,
    the runs that lead there, as (agent, nodes), and how many nodes of what share are
    then left."""

    moves: int
    runs: List[Run]
    rest: int


Divide = Callable[[int, int], Division]


def of_ring3(left: int, way: int) -> Division:
    """How ring3.py divides. Its box is in the middle, or a link nearer to the left
    agent."""
    t, m = ring3.parts(left)
    return Division(left - m - t, m, t, way // 2)


def cases(left: int, way: int, division: Division) -> List[Case]:
    """All answers of the adversary, without how far the one that comes last has
    come."""
    s, m, t, p = division
    answers = []
    for first, mine, last, theirs, near, far in (
        (RIGHT, t, LEFT, s, way - p, p),
        (LEFT, s, RIGHT, t, p, way - p),
    ):
        if m == 0:
            answers.append(
                Case(0 if theirs == 1 else way + mine - BACK, [(first, mine)], theirs)
            )
            continue
        moves = 2 * (near + mine) - BACK
        answers.append(
            Case(
                moves + (0 if theirs == 1 else way + mine + m - BACK),
                [(first, mine), (first, m)],
                theirs,
            )
        )
        end = 2 * (far + theirs) - BACK if m == 1 else way + s + t - BACK
        answers.append(Case(moves + end, [(first, mine), (last, theirs)], m))
    return answers


# the most that ways cost, and the division
Costed = Tuple[int, Division]


def least(cost: "np.ndarray", *division: "np.ndarray") -> Costed:
    """The least of these costs, with its division."""
    index = int(cost.argmin())
    return int(cost.flat[index]), Division(
        *(int(np.broadcast_to(x, cost.shape).flat[index]) for x in division)
    )


class Table:
    """The tables V and M of a ring for one rule of division, or for the best
    division."""

    def __init__(self, nodes: int, divide: Optional[Divide] = None) -> None:
        self.nodes = nodes
        self.value = np.zeros(nodes, dtype=np.int64)
        self.share = np.zeros(nodes, dtype=np.int64)
        self.division: List[Division] = [Division(0, 0, 0, 0)] * nodes
        for left in range(2, nodes):
            way = nodes - 1 - left
            self.division[left] = divide(left, way) if divide else self._best(left, way)
            self.value[left] = way + max(
                case.moves + self.share[case.rest] for case in self.cases(left)
            )
            self.share[left] = max(i + self.value[left - i] for i in range(left))

    def cases(self, left: int) -> List[Case]:
        return cases(left, self.nodes - 1 - left, self.division[left])

    def moves(self) -> int:
        return 3 * (self.nodes - 2) + 1 + int(self.value[self.nodes - 1])

    def _best(self, left: int, way: int) -> Division:
        """The best division, of all sizes and places of the box. Of two that are each
        other's mirror one is tried."""
        return min([self._best_halves(left, way), *self._best_thirds(left, way)])[1]

    def _best_halves(self, left: int, way: int) -> Costed:
        share = self.share
        s = np.arange(1, left // 2 + 1)
        t = left - s
        none = np.zeros_like(s)
        cost = np.maximum(
            np.where(s == 1, 0, way + t - BACK + share[s]),
            np.where(t == 1, 0, way + s - BACK + share[t]),
        )
        return least(cost, s, none, t, none)

    def _best_thirds(self, left: int, way: int) -> List[Costed]:
        """Returns the best divisions with a middle of several nodes and with a middle
        of one node, where possible."""
        share = self.share
        s, t = (
            grid.ravel() for grid in np.meshgrid(np.arange(1, left), np.arange(1, left))
        )
        fits = (s <= t) & (s + t < left)
        s = s[fits]
        t = t[fits]
        m = left - s - t
        candidates: List[Costed] = []
        if len(s):
            right = np.where(s == 1, 0, way + t + m - BACK + share[s])
            left_ = np.where(t == 1, 0, way + s + m - BACK + share[t])
            middle = way + s + t - BACK + share[m]
            x = np.maximum(right, middle)
            y = np.maximum(left_, middle)
            # the two sides cost the same about there
            even = np.floor_divide(2 * way + 2 * t - 2 * s + x - y, 4)
            for p in (np.clip(even, 0, way), np.clip(even + 1, 0, way)):
                cost = np.maximum(2 * (way - p + t) - BACK + x, 2 * (p + s) - BACK + y)
                candidates.append(
                    least(np.where(m == 1, np.iinfo(np.int64).max, cost), s, m, t, p)
                )
            is_single = m == 1
            s = s[is_single]
            t = t[is_single]
            right = right[is_single]
            left_ = left_[is_single]
            p = np.arange(way + 1)[:, None]
            q = way - p
            cost = np.maximum(
                2 * (q + t) - BACK + np.maximum(right, 2 * (p + s) - BACK),
                2 * (p + s) - BACK + np.maximum(left_, 2 * (q + t) - BACK),
            )
            candidates.append(least(cost, s, np.ones_like(s), t, p))
        return candidates

    def runs(self) -> Tuple[List[Run], int]:
        """The runs of a worst case, as (agent, nodes), and how many nodes the right
        agent has then explored."""
        left = self.nodes - 1
        runs = []
        while left > 1:
            case = max(
                self.cases(left),
                key=lambda answer: answer.moves + self.share[answer.rest],
            )
            i = max(range(case.rest), key=lambda i: i + self.value[case.rest - i])
            first = case.runs[:-1]
            last = case.runs[-1]
            runs += first + ([(1 - last[0], i)] if i else []) + [last]
            left = case.rest - i
        return runs, sum(count for agent, count in runs if agent == RIGHT)


def bound(nodes: int) -> float:
    return 3 * nodes * math.log(nodes, 3)


def table(sizes: List[int]) -> None:
    """Prints what the searches come to on rings of these sizes."""
    print(
        "n | best division | ring3.py | ring.py | 3 n log3 n | best / bound | ring3 / bound | ring3 / ring"
    )
    for nodes in sizes:
        best = Table(nodes).moves()
        thirds = Table(nodes, of_ring3).moves()
        halves = most_moves(nodes)
        limit = bound(nodes)
        print(
            f"{nodes} | {best} | {thirds} | {halves} | {limit:.1f} | {best / limit:.3f} | {thirds / limit:.3f} | "
            f"{thirds / halves:.3f}",
            flush=True,
        )


def attain(sizes: List[int]) -> None:
    """Plays the worst case with the agent's own code."""
    for nodes in sizes:
        table = Table(nodes, of_ring3)
        runs, right = table.runs()
        search_end = play_search(ring3.search, nodes, runs)
        print(
            f"ring:{nodes} counted {table.moves()}, played {search_end.moves}, black hole {search_end.hole}, commands "
            f"{search_end.commands}, runs {runs}"
        )
        if (search_end.moves, search_end.hole) != (table.moves(), right + 1):
            sys.exit(f"ring:{nodes}: the count is not attained")


def main(arguments: List[str]) -> None:
    commands = {"table": table, "attain": attain}
    if (
        len(arguments) < 2
        or arguments[0] not in commands
        or not all(word.isdigit() and int(word) > 2 for word in arguments[1:])
    ):
        sys.exit((__doc__ or "").strip())
    commands[arguments[0]]([int(word) for word in arguments[1:]])


if __name__ == "__main__":
    main(sys.argv[1:])
