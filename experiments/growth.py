"""Draws how moves grow with nodes: the most moves in the tables of docs/EXPERIMENTS.md,
beside the bounds.

    /usr/bin/python3 -m experiments.growth [FILE]

Writes an SVG picture to FILE (docs/growth.svg). `python3 -m experiments.make --write`
draws it too, from its tables. Needs python3-matplotlib.
"""
import pathlib
import sys
from typing import Any, Dict, List, NamedTuple, Sequence, Tuple

from arena_lab.rules import networks
from arena_lab.support.built import TOP
from arena_lab.sweep.grid import BOUNDS
from arena_lab.sweep.report import COLOURS, new_figure, svg_of

DOCUMENT = TOP / "docs" / "EXPERIMENTS.md"
PICTURE = TOP / "docs" / "growth.svg"
# how the heads of columns with the most moves end
MOST = ": most"


class Series(NamedTuple):
    """A series of the plot: networks of some tables, their bound, and the marker of
    points."""

    name: str
    tables: Sequence[str]
    bound: str
    mark: str


ALL_SERIES = (
    Series("two agents on rings", ("rings", "large-rings"), "2 n log2 n", "o"),
    Series("two agents with a map", ("known-map", "large-known-map"), "n log2 n", "^"),
    Series(
        "without a map, one agent more than the degree",
        ("no-map", "large-no-map"),
        "n^2",
        "s",
    ),
)


def cells_in(document: str, name: str) -> List[List[str]]:
    """Returns the head and the rows of a table in the document."""
    text = document.partition(f"<!-- table {name} -->")[2].partition("<!-- end")[0]
    head, _, *rows = [
        line.strip("| ").split(" | ")
        for line in text.splitlines()
        if line.startswith("|")
    ]
    return [head, *rows]


def rows_in(document: str, name: str) -> List[Dict[str, str]]:
    """The rows of a table, by the heads of its columns, which differ."""
    head, *rows = cells_in(document, name)
    return [dict(zip(head, row)) for row in rows]


def points(document: str, series: Series) -> List[Tuple[int, int]]:
    """The nodes of each network, and the most moves in any column of its row."""
    return [
        (
            networks.network_named(row["network"]).nodes,
            max(
                int(cell)
                for head, cell in row.items()
                if head.endswith(MOST) and cell.isdigit()
            ),
        )
        for name in series.tables
        for row in rows_in(document, name)
    ]


def draw_figure(document: str) -> Any:
    """The picture, as a figure of matplotlib."""
    figure = new_figure()
    axes = figure.add_subplot()
    for series, colour in zip(ALL_SERIES, COLOURS):
        series_points = points(document, series)
        sizes = sorted({nodes for nodes, _ in series_points})
        axes.plot(
            *zip(*series_points),
            series.mark,
            color=colour,
            markersize=4,
            label=series.name,
        )
        axes.plot(
            sizes,
            [BOUNDS[series.bound](nodes) for nodes in sizes],
            "-",
            color=colour,
            linewidth=0.8,
            label=series.bound,
        )
    axes.set_xscale("log", base=2)
    axes.set_yscale("log", base=10)
    axes.set_xlabel("nodes")
    axes.set_ylabel("most moves")
    axes.grid(color="#dddddd", linewidth=0.6)
    axes.legend(frameon=False, fontsize=8)
    return figure


def write(file: pathlib.Path = PICTURE) -> None:
    """Draws the document's tables."""
    file.write_text(
        svg_of(draw_figure(DOCUMENT.read_text(encoding="utf-8"))), encoding="utf-8"
    )
    print(f"{file}: written", flush=True)


if __name__ == "__main__":
    if len(sys.argv) > 2 or sys.argv[1:] in (["-h"], ["--help"]):
        sys.exit((__doc__ or "").strip())
    write(*map(pathlib.Path, sys.argv[1:]))
