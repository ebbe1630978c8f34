"""Draws the moves of two agents on rings: what every team must make, what searches
made, and what halves make at most.

    /usr/bin/python3 -m bench.ring_bounds [FILE]

Writes an SVG picture to FILE (docs/ring-bounds.svg). Its lines are `least_moves` and
the second bound of `bhs_protocols_bounds`, and `most_moves` of `bhs_protocols`, each divided by
the number of nodes n, over n. Its points are the most moves under every schedule in
docs/EXPERIMENTS.md, by halves (`ring_step.py`) and by thirds (`ring3.py`). Needs
python3-matplotlib.
"""
import argparse
import pathlib
import re
import sys
from typing import Any, Dict, Optional, Sequence

from arena_lab.search.ring_bounds import least_moves, more_moves, most_moves
from arena_lab.sweep.report import new_figure, svg_of

TOP = pathlib.Path(__file__).resolve().parents[1]
PICTURE = TOP / "docs" / "ring-bounds.svg"
EXPERIMENTS = TOP / "docs" / "EXPERIMENTS.md"
FIRST = 3
LAST = 256
# a row of explored networks: the ring, the team, its states, and the most moves
ROW = r"^\| ring:(\d+) \| 2, `{}` \| \d+ \| (\d+) \|"
AGENTS = {
    "ring_step.py": ("halves, every schedule tried", "o"),
    "ring3.py": ("thirds, every schedule tried", "^"),
}


def explore_moves(agent: str) -> Dict[int, int]:
    """The most moves of two agents of this program by the number of nodes, where every
    schedule was tried."""
    rows = re.findall(
        ROW.format(re.escape(agent)), EXPERIMENTS.read_text(encoding="utf-8"), re.M
    )
    return {int(nodes): int(moves) for nodes, moves in rows}


def draw_figure() -> Any:
    """The picture, as a figure of matplotlib."""
    figure = new_figure()
    axes = figure.add_subplot()
    sizes = range(FIRST, LAST + 1)
    for name, bound, style in (
        ("search by halves: proved, at most", most_moves, "-"),
        ("every team of two: proved, at least (1.44)", more_moves, "-."),
        ("every team of two: proved, at least (R (n - 2) + 1)", least_moves, "--"),
    ):
        axes.plot(
            sizes,
            [bound(nodes) / nodes for nodes in sizes],
            style,
            linewidth=1,
            label=name,
        )
    for agent, (name, mark) in AGENTS.items():
        points = explore_moves(agent)
        axes.plot(
            list(points),
            [moves / nodes for nodes, moves in points.items()],
            mark,
            markersize=4,
            label=name,
        )
    axes.set_xscale("log", base=2)
    axes.set_xlabel("nodes")
    axes.set_ylabel("moves by nodes")
    axes.grid(axis="y", color="#dddddd", linewidth=0.6)
    axes.legend(frameon=False, fontsize=8)
    return figure


def main(words: Optional[Sequence[str]] = None) -> int:
    parser = argparse.ArgumentParser(
        description=__doc__, formatter_class=argparse.RawDescriptionHelpFormatter
    )
    parser.add_argument("file", nargs="?", type=pathlib.Path, default=PICTURE)
    file = parser.parse_args(words).file
    file.write_text(svg_of(draw_figure()), encoding="utf-8")
    print(f"{file}: written")
    return 0


if __name__ == "__main__":
    sys.exit(main())
