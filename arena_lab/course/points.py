"""Points of matches, as the table [points] of a course's file says:

    [points]
    network = 10
    moves = 0.3
    bound = "2 n log2 n"
    lost = 0.5
    visibility = "visible"

    network       how many points each network has, or a table such as {"ring:8" = 5, "ring:64" = 20}; the matches on a
                  network have equal parts of them (10)
    moves         which part of a solved match's points is for its moves: all of it within the bound, none from twice
                  the bound on, and evenly less between (0)
    bound         the bound of moves: a number, or "2 n log2 n", "n log2 n" or "n^2"
    lost          how many points each agent that is lost in a solved match takes away, besides one for each black hole
                  and each dark link (0)
    visibility    when students see a match on Gradescope: "visible", "hidden", "after_due_date" or "after_published"

A match that is not solved, or does not repeat, has no points, and none has fewer than
0. Points have two decimals.
"""
import math
from typing import Any, Dict, List, Mapping, NamedTuple, Sequence, Union

from arena_lab.support import fields
from arena_lab.support.fields import Field, FileFormatError
from arena_lab.sweep.grid import BOUNDS, Grid
from arena_lab.sweep.report import FAULTS, Row, is_solved

# default points of a network
DEFAULT_POINTS = 10
VISIBLE = ("visible", "hidden", "after_due_date", "after_published")
CENTS = 100


class Points(NamedTuple):
    """The grading scheme; points of networks are in hundredths."""

    networks: Mapping[str, int]
    moves: float
    bound: Union[None, str, float]
    lost: float
    visibility: str
    # dark links of each match
    dark: int

    def most_moves(self, nodes: int) -> float:
        """The bound of moves on a network of this number of nodes."""
        return (
            BOUNDS[self.bound](nodes)
            if isinstance(self.bound, str)
            else self.bound or math.inf
        )


class Mark(NamedTuple):
    """The points of a match, and the most that it could have, in hundredths; and what
    took points away."""

    row: Row
    score: int
    most: int
    why: List[str]

    @property
    def number(self) -> int:
        return int(self.row["run"])

    def name(self) -> str:
        """Returns the match's name in gradebooks."""
        return f"match {self.number}: {self.row['network']}, {self.row['scheduler']} {self.row['seed']}"


def is_amount(value: Any) -> bool:
    return (
        isinstance(value, (int, float))
        and not isinstance(value, bool)
        and 0 <= value <= 1e6
    )


def are_amounts(value: Any) -> bool:
    return (
        is_amount(value)
        or isinstance(value, dict)
        and all(map(is_amount, value.values()))
    )


def is_bound(value: Any) -> bool:
    return (
        isinstance(value, str)
        and value in BOUNDS
        or is_amount(value)
        and value > 0
        or value is None
    )


FIELDS = {
    "network": Field(
        are_amounts,
        'a number of points from 0, or a table such as {"ring:8" = 5}',
        DEFAULT_POINTS,
    ),
    "moves": Field(
        lambda value: is_amount(value) and value <= 1, "a part from 0 to 1", 0
    ),
    "bound": Field(is_bound, f"a number of moves or one of {', '.join(BOUNDS)}", None),
    "lost": Field(is_amount, "a number from 0", 0),
    "visibility": fields.one_of(VISIBLE, VISIBLE[0]),
}


def points_in(table: Dict[str, Any], grid: Grid) -> Points:
    """The points that a table of a course's file gives."""
    values = fields.values_of(table, FIELDS, "[points]")
    if values["moves"] and values["bound"] is None:
        raise FileFormatError(
            '[points] has moves, and no bound of which they are: write for example bound = "2 n log2 n"'
        )
    return Points(
        of_networks(values["network"], grid),
        values["moves"],
        values["bound"],
        values["lost"],
        values["visibility"],
        len(grid.dark),
    )


def of_networks(points: Any, grid: Grid) -> Dict[str, int]:
    """The points of each network, in hundredths."""
    if isinstance(points, dict):
        for name in points:
            if name not in grid.names:
                raise FileFormatError(
                    f"[points] has points for {name}, which is not in networks"
                )
    return {
        name: round(
            CENTS
            * (points.get(name, DEFAULT_POINTS) if isinstance(points, dict) else points)
        )
        for name in grid.names
    }


def marks(points: Points, rows: Sequence[Row]) -> List[Mark]:
    """Distributes the points of each network over a team's matches, so that they sum up
    to the network's points exactly."""
    count: Dict[str, int] = {}
    for row in rows:
        count[row["network"]] = count.get(row["network"], 0) + 1
    match_counts: Dict[str, int] = {}
    all_marks = []
    for row in rows:
        name = row["network"]
        whole = points.networks[name]
        index = match_counts.get(name, 0)
        match_counts[name] = index + 1
        all_marks.append(
            mark(
                points,
                row,
                whole * (index + 1) // count[name] - whole * index // count[name],
            )
        )
    return all_marks


def mark(points: Points, row: Row, limit: int) -> Mark:
    """Marks one match, which is worth at most `limit` hundredths."""
    if not is_solved(row):
        return Mark(row, 0, limit, list(row[FAULTS]))
    moves = int(row["moves"])
    bound = points.most_moves(int(row["nodes"]))
    over = min(1.0, max(0.0, moves / bound - 1))
    extra = max(0, int(row["lost"]) - len(row["hole"].split()) - points.dark)
    for_moves = round(limit * points.moves * over)
    for_lost = round(CENTS * points.lost * extra)
    why = (
        [f"{text(for_moves)} less for {moves} moves, where the bound is {bound:.1f}"]
        if for_moves
        else []
    )
    if for_lost:
        why.append(
            f"{text(for_lost)} less for {extra} more lost than there are black holes and dark links"
        )
    return Mark(row, max(0, limit - for_moves - for_lost), limit, why)


def text(cents: int) -> str:
    """Points with two decimals at most, as gradebooks read them."""
    return str(number(cents))


def number(cents: int) -> Union[int, float]:
    """Points as a number."""
    return cents // CENTS if cents % CENTS == 0 else cents / CENTS
