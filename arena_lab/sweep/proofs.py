"""The folder of `explore --out`: a row for each match all of whose schedules solve it,
and a plot of the most moves."""
import hashlib
import pathlib
from typing import Any, Dict, Iterable, List, NamedTuple, Sequence, Tuple

from arena_lab.play.agent_files import digests
from arena_lab.play.teams import Game, digests_of
from arena_lab.rules.fixtures import Fixture
from arena_lab.search.findings import ExploreAnswer, Solves
from arena_lab.search.match_results import MatchResult
from arena_lab.sweep.grid import BOUNDS
from arena_lab.sweep.report import (
    COLOURS,
    draw_curve,
    moves_up,
    new_figure,
    over_nodes,
    svg_of,
)
from arena_lab.sweep.tables import (
    TableError,
    cells_in,
    check_asked,
    with_check,
    line_of,
    made_by,
    note_read,
    prepare_table,
)

MATCHES = "matches.csv"
PLOT = "moves.svg"
# columns of a match: its identity, finding, and number of sleeping memories without a
# further wake-up
COLUMNS = (
    "match",
    "network",
    "nodes",
    "links",
    "home",
    "holes",
    "agents",
    "naps",
    "states",
    "moves",
    "lost",
    "turns",
    "asleep",
    "check",
)
FOUND_COLUMNS = COLUMNS[COLUMNS.index("states") : -1]


class MostMoves(NamedTuple):
    """The most moves and lost agents of all matches on a network, under every
    schedule."""

    network: str
    nodes: int
    moves: int
    lost: int


def match_cells(number: int, game: Game, fixture: Fixture) -> List[str]:
    """The columns that say which match a row is of."""
    setup = fixture.setup
    return list(
        map(
            str,
            (
                number,
                game.name,
                setup.nodes,
                len(setup.links),
                setup.home,
                " ".join(map(str, setup.holes)),
                setup.agents,
                fixture.naps,
            ),
        )
    )


class Folder:
    """The rows of matches of some games, in order. Matches with rows are not explored
    again."""

    def __init__(self, path: pathlib.Path, games: Sequence[Game], program: str) -> None:
        self._path = path
        matches = ((game, fixture) for game in games for fixture in game.fixtures())
        self._asked = [
            match_cells(number, *match) for number, match in enumerate(matches)
        ]
        self._count = prepare_table(path, made_of(games, program), MATCHES, COLUMNS)
        check_asked(
            path / MATCHES,
            cells_in(path / MATCHES, COLUMNS),
            self._asked,
            "match than these: name another folder by --out",
        )

    def of(self, games: Sequence[Game], index: int) -> List[MatchResult]:
        """The matches of a game that have rows."""
        first = sum(len(game.fixtures()) for game in games[:index])
        rows = cells_in(self._path / MATCHES, COLUMNS)[first:]
        return [
            result_of(fixture, row)
            for fixture, row in zip(games[index].fixtures(), rows)
        ]

    def add(self, result: MatchResult) -> None:
        """Writes the row of the next match."""
        if result.beside is not None:
            raise TableError(
                "an agent may use more commands than its quota, of which the program finds nothing, and "
                "--out writes what it finds alone: give a larger --quota"
            )
        cells = [*self._asked[self._count], *finding_cells(result.answer)]
        note_read(self._path, result.read_hashes)
        with (self._path / MATCHES).open("a", encoding="utf-8", newline="") as file:
            file.write(line_of(with_check(cells, COLUMNS)))
        self._count += 1

    def draw(self, bounds: Sequence[str]) -> str:
        """Draws the most moves of each network; gives the name of the file."""
        rows = [
            dict(zip(COLUMNS, cells))
            for cells in cells_in(self._path / MATCHES, COLUMNS)
        ]
        (self._path / PLOT).write_text(plot(most_in(rows), bounds), encoding="utf-8")
        return str(self._path / PLOT)


def finding_cells(answer: ExploreAnswer) -> List[str]:
    """The columns FOUND_COLUMNS of a match that every schedule solves."""
    finding = answer.finding
    assert isinstance(finding, Solves), "only solved matches have rows"
    maxima = (finding.moves, finding.lost, finding.turns)
    return list(map(str, (answer.states, *maxima, answer.unwoken)))


def result_of(fixture: Fixture, row: Sequence[str]) -> MatchResult:
    """Restores an explored match from its row; the time taken is not stored."""
    states, moves, lost, turns, asleep = (
        int(dict(zip(COLUMNS, row))[name]) for name in FOUND_COLUMNS
    )
    return MatchResult(
        fixture, ExploreAnswer(Solves(moves, lost, turns), 0.0, states, unwoken=asleep)
    )


def made_of(games: Sequence[Game], program: str) -> Dict[str, Any]:
    """Returns the dependencies of the rows. The limit of states is left
    out: later runs may raise it."""
    files = {
        **digests([game.name for game in games]),
        **digests_of([agent for game in games for agent in game.agents]),
    }
    text = repr([(game.agents, game.fixtures()) for game in games])
    return {
        **made_by(program),
        "files": files,
        "matches": hashlib.sha256(text.encode()).hexdigest(),
    }


def most_in(rows: Iterable[Dict[str, str]]) -> List[MostMoves]:
    """Returns the most moves of each network, in order."""
    groups: Dict[Tuple[str, int], List[Dict[str, str]]] = {}
    for row in rows:
        groups.setdefault((row["network"], int(row["nodes"])), []).append(row)
    return [
        MostMoves(
            *name, *(max(int(row[what]) for row in of) for what in ("moves", "lost"))
        )
        for name, of in groups.items()
    ]


def plot(rows: Sequence[MostMoves], bounds: Sequence[str]) -> str:
    """The plot of the most moves over the nodes, as an SVG element, with the bounds
    that are named."""
    figure = new_figure()
    axes = figure.add_subplot()
    nodes = [row.nodes for row in rows]
    axes.plot(
        nodes,
        [row.moves for row in rows],
        color=COLOURS[0],
        linestyle="",
        marker="o",
        markersize=4,
        label="most moves under every schedule",
    )
    for name, colour in zip(bounds, COLOURS[1:]):
        draw_curve(axes, BOUNDS[name], nodes, color=colour, label=name)
    over_nodes(axes)
    moves_up(axes)
    return svg_of(figure)
