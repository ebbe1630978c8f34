"""The report of a sweep: its summary, its plots and its page."""
import io
from typing import (
    Any,
    Callable,
    Collection,
    Dict,
    List,
    NamedTuple,
    Optional,
    Sequence,
    Tuple,
)

from arena_lab.pages.parts import as_is, fill_page
from arena_lab.support.missing import require
from arena_lab.sweep.grid import BOUNDS, Grid
from arena_lab.sweep.statistic import Confidence, spread_of

HEAD = (
    "network",
    "nodes",
    "team",
    "agents",
    "scheduler",
    "runs",
    "different",
    "solved",
    "mean moves",
    "confidence 95 %",
    "lower quartile",
    "median",
    "upper quartile",
    "most moves",
    "its run",
    "most lost",
    "bound",
)
# more columns of the summary, where the program has tried every schedule; and the columns
# of the report's table of matches
EVERY = ("every schedule", "its most moves", "its most lost")
MATCHES = (
    "network",
    "team",
    "black hole",
    "every schedule",
    "states",
    "most moves",
    "most in runs",
    "most lost",
    "most lost in runs",
)
# finding -> text in the report; any other finding is a failure
RESULT_TEXTS = {
    "solves": "solves",
    "limit": "too many states",
    "exceeds": "may use more than its quota",
    "": "not tried",
}
FAILS = "one fails"
# how many points a curve has
POINTS = 100
SIZE = (7.6, 4.8)
COLOURS = ("#0b6e99", "#c2410c", "#4d7c0f", "#7e22ce", "#a16207", "#be123c")

# keys of a row: its faults, and the further ones
FAULTS = "faults"
MORE_STATES = "more"
Row = Dict[str, Any]
Name = Tuple[str, str, str]
Match = Tuple[str, str, str]


class KeptRun(NamedTuple):
    """A run that was kept: its row, and the file that shows it."""

    row: Row
    link: str

    def about(self) -> str:
        """One line: network, team, scheduler, seed and hole, then outcome, moves and
        losses."""
        row = self.row
        subject = f"{row['network']}, {row['team']}, {row['scheduler']} {row['seed']}, black hole {row['hole']}"
        outcome = f"{row['outcome']}, {row['moves']} moves, {row['lost']} lost"
        return "; ".join([f"{subject}: {outcome}", *row[FAULTS]])


class RunGroup(NamedTuple):
    """The runs of one team on one network under one scheduler, and how many different
    matches they are."""

    name: Name
    nodes: int
    agents: int
    runs: int
    different: int
    solved: int
    moves: Confidence
    worst: Row
    lost: int
    bound: Optional[float]
    # rows of its matches under every schedule
    every: Sequence[Row] = ()

    def cells(self) -> List[str]:
        """The group as a row of the summary."""
        network, team, scheduler = self.name
        bound = "" if self.bound is None else f"{self.bound:.0f}"
        return [
            network,
            str(self.nodes),
            team,
            str(self.agents),
            scheduler,
            str(self.runs),
            str(self.different),
            str(self.solved),
            f"{self.moves.mean:.1f}",
            f"{self.moves.confidence:.1f}",
            f"{self.moves.low:g}",
            f"{self.moves.median:g}",
            f"{self.moves.high:g}",
            self.worst["moves"],
            self.worst["run"],
            str(self.lost),
            bound,
            *self.every_cells(),
        ]

    def every_cells(self) -> List[str]:
        """Returns the cells about every schedule of its matches; empty if none was
        explored."""
        if not self.every:
            return []
        texts = {finding_text(row.get("found", "")) for row in self.every}
        if texts == {RESULT_TEXTS["solves"]}:
            return [
                RESULT_TEXTS["solves"],
                *(
                    str(max(int(row[column]) for row in self.every))
                    for column in ("moves", "lost")
                ),
            ]
        return [
            next(
                text
                for text in (FAILS, *list(RESULT_TEXTS.values())[::-1])
                if text in texts
            ),
            "",
            "",
        ]

    def has_failed(self) -> bool:
        """Returns whether a run failed, or some schedule of a match fails."""
        return self.solved != self.runs or FAILS in self.every_cells()

    def named_cells(self) -> List[Tuple[str, str]]:
        """Returns (column name, cell) pairs."""
        return list(zip(HEAD + EVERY, self.cells()))


def finding_text(kind: str) -> str:
    """Returns the text for a finding of `arena explore`."""
    return RESULT_TEXTS.get(kind, FAILS)


def head_of(groups: Sequence[RunGroup]) -> Sequence[str]:
    """The columns of the summary."""
    return HEAD + EVERY if any(group.every for group in groups) else HEAD


def is_solved(row: Row) -> bool:
    return row["outcome"] == "solved" and not row["fault"]


def groups_of(
    rows: Sequence[Row], spec: Grid, every: Sequence[Row] = ()
) -> List[RunGroup]:
    """Returns the groups of a sweep in the order of its file, with the findings for
    every schedule of their matches."""
    groups: Dict[Name, List[Row]] = {}
    for row in rows:
        groups.setdefault((row["network"], row["team"], row["scheduler"]), []).append(
            row
        )
    by_match = {match_of(row): row for row in every}
    return [
        group_of(name, members, spec)._replace(
            every=every_of(members, by_match) if every else ()
        )
        for name, members in groups.items()
    ]


def match_of(row: Row) -> Match:
    """The match of a row: its network, its team and its black holes."""
    return row["network"], row["team"], row["hole"]


def every_of(rows: Sequence[Row], every: Dict[Match, Row]) -> List[Row]:
    """Returns each match's row under every schedule once; {} for unexplored matches."""
    return [every.get(match, {}) for match in dict.fromkeys(map(match_of, rows))]


def matches(rows: Sequence[Row], every: Sequence[Row]) -> List[Sequence[str]]:
    """Returns a row per match: its finding beside the most moves and lost agents of its
    runs."""
    groups: Dict[Match, List[Row]] = {}
    for row in rows:
        groups.setdefault(match_of(row), []).append(row)
    bounds = {
        match: [
            str(max(int(row[column]) for row in of)) for column in ("moves", "lost")
        ]
        for match, of in groups.items()
    }
    return [
        (
            row["network"],
            row["team"],
            row["hole"],
            finding_text(row["found"]),
            row["states"],
            row["moves"],
            bounds[match_of(row)][0],
            row["lost"],
            bounds[match_of(row)][1],
        )
        for row in every
    ]


def group_of(name: Name, rows: List[Row], spec: Grid) -> RunGroup:
    moves = [int(row["moves"]) for row in rows]
    nodes = int(rows[0]["nodes"])
    return RunGroup(
        name,
        nodes,
        int(rows[0]["agents"]),
        len(rows),
        len({row["replay"] for row in rows}),
        sum(map(is_solved, rows)),
        spread_of(moves),
        max(rows, key=lambda row: int(row["moves"])),
        max(int(row["lost"]) for row in rows),
        BOUNDS[spec.bound](nodes) if spec.bound else None,
    )


def summary(groups: Sequence[RunGroup]) -> List[Sequence[str]]:
    """The summary's rows, with their head."""
    return [head_of(groups), *(group.cells() for group in groups)]


def worst_runs(rows: Sequence[Row]) -> List[Row]:
    """Returns the runs to keep: for each team and network the first failure, else the
    run with the most moves."""
    best: Dict[Tuple[str, str], Row] = {}
    for row in rows:
        key = row["network"], row["team"]
        if key not in best or rank(row) > rank(best[key]):
            best[key] = row
    return list(best.values())


def rank(row: Row) -> Tuple[bool, int]:
    has_failed = not is_solved(row)
    return has_failed, 0 if has_failed else int(row["moves"])


def is_one_family(spec: Grid) -> bool:
    """Returns whether the networks are of one kind and differ in size, so that moves
    can be drawn over nodes."""
    kinds = {name.partition(":")[0] for name in spec.names}
    return (
        len(kinds) == 1
        and len({network.nodes for network in spec.networks.values()})
        == len(spec.names)
        > 1
    )


def places(spec: Grid) -> Dict[str, float]:
    """Returns the position of each network on the axis."""
    if is_one_family(spec):
        return {name: spec.networks[name].nodes for name in spec.names}
    return {name: number for number, name in enumerate(spec.names)}


def plot(spec: Grid, groups: Sequence[RunGroup]) -> str:
    """The plot of moves, as an SVG element: means with their confidence, the most
    moves, and the bound."""
    figure = new_figure()
    axes = figure.add_subplot()
    spots = places(spec)
    lines = sorted(
        {group.name[1:] for group in groups},
        key=[group.name[1:] for group in groups].index,
    )
    for number, line in enumerate(lines):
        draw_line(
            axes,
            [group for group in groups if group.name[1:] == line],
            spots,
            (number, len(lines), spec),
        )
    draw_bound(axes, spec, spots)
    label_axes(axes, spec, spots)
    return svg_of(figure)


def new_figure() -> Any:
    """A figure that is the same each time it is drawn."""
    matplotlib = require("matplotlib")
    matplotlib.use("svg")
    matplotlib.rcParams.update(
        {"svg.hashsalt": "lab", "font.size": 9, "font.family": "DejaVu Sans"}
    )
    return require("matplotlib.figure").Figure(figsize=SIZE, layout="constrained")


def svg_of(figure: Any) -> str:
    """A figure as an SVG element. A page has the element alone, without the head of an
    XML file."""
    text = io.StringIO()
    figure.savefig(text, format="svg", metadata={"Date": None, "Creator": None})
    return "".join(text.getvalue().partition("<svg")[1:])


def draw_line(
    axes: Any,
    groups: Sequence[RunGroup],
    spots: Dict[str, float],
    style: Tuple[int, int, Grid],
) -> None:
    """Draws what one team did under one scheduler."""
    number, count, spec = style
    _, team, scheduler = groups[0].name
    apart = 0 if is_one_family(spec) else (number - (count - 1) / 2) * 0.5 / count
    across = [spots[group.name[0]] + apart for group in groups]
    colour = COLOURS[number % len(COLOURS)]
    line_style = "-" if is_one_family(spec) else ""
    name = scheduler if len(spec.teams) == 1 else f"{team}, {scheduler}"
    axes.errorbar(
        across,
        [group.moves.mean for group in groups],
        color=colour,
        yerr=[group.moves.confidence for group in groups],
        linestyle=line_style,
        marker="o",
        markersize=4,
        capsize=2,
        label=f"{name}: mean",
    )
    axes.plot(
        across,
        [int(group.worst["moves"]) for group in groups],
        color=colour,
        linestyle="",
        marker="^",
        markersize=6,
        fillstyle="none",
        label=f"{name}: most",
    )


def draw_bound(axes: Any, spec: Grid, spots: Dict[str, float]) -> None:
    if spec.bound is None:
        return
    bound = BOUNDS[spec.bound]
    style = {"color": "#555555", "label": spec.bound}
    if is_one_family(spec):
        # a curve, and not a line from network to network
        draw_curve(axes, bound, spots.values(), **style)
    else:
        heights = [bound(spec.networks[name].nodes) for name in spec.names]
        axes.plot(
            [spots[name] for name in spec.names],
            heights,
            linestyle="",
            marker="_",
            linewidth=1,
            markersize=14,
            **style,
        )


def draw_curve(
    axes: Any, bound: Callable[[float], float], nodes: Collection[float], **style: Any
) -> None:
    """Draws a bound over the numbers of nodes between the least and the greatest of
    these."""
    first = min(nodes)
    last = max(nodes)
    across = [first + (last - first) * point / POINTS for point in range(POINTS + 1)]
    axes.plot(across, [bound(x) for x in across], linestyle="--", linewidth=1, **style)


def label_axes(axes: Any, spec: Grid, spots: Dict[str, float]) -> None:
    if is_one_family(spec):
        over_nodes(axes)
    else:
        axes.set_xticks(list(spots.values()), list(spots), rotation=25, ha="right")
    moves_up(axes)


def over_nodes(axes: Any) -> None:
    """Draws over the numbers of nodes."""
    axes.set_xlabel("nodes")
    axes.xaxis.set_major_locator(require("matplotlib.ticker").MaxNLocator(integer=True))


def moves_up(axes: Any) -> None:
    """Draws moves, with a legend above."""
    axes.set_ylabel("moves")
    axes.set_ylim(bottom=0)
    axes.yaxis.set_major_locator(require("matplotlib.ticker").MaxNLocator(integer=True))
    for side in ("top", "right"):
        axes.spines[side].set_visible(False)
    axes.grid(axis="y", color="#dddddd", linewidth=0.6)
    axes.set_axisbelow(True)
    axes.legend(
        frameon=False, fontsize=8, ncols=3, loc="lower left", bbox_to_anchor=(0, 1)
    )


def page(
    spec: Grid,
    groups: Sequence[RunGroup],
    kept_runs: Sequence[KeptRun],
    engine: str,
    every: Sequence[Sequence[str]] = (),
) -> str:
    """Returns the report as an HTML page, with links to the kept runs, and with the
    findings for every schedule, if any."""
    runs, solved_count = (
        sum(getattr(group, name) for group in groups) for name in ("runs", "solved")
    )
    about = f"{runs} runs, played and judged by {engine}: solved {solved_count}, failed {runs - solved_count}."
    return fill_page(
        "report.html",
        title=spec.title,
        about=about,
        plot=as_is(plot(spec, groups)),
        head=head_of(groups),
        groups=groups,
        links={run.row["run"]: run.link for run in kept_runs},
        kept=kept_runs,
        every_head=MATCHES,
        every=every,
        fails=FAILS,
    )
