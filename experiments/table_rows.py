"""Makes the rows of each table of docs/EXPERIMENTS.md, by commands of the lab."""
import contextlib
import io
import pathlib
import re
import sys
import tempfile
import tomllib
from typing import Callable, Dict, List, Mapping, NamedTuple, Sequence, Tuple

from bench import explore
from experiments.division import Table, bound, of_ring3, ring3
from experiments.turns import play_search
from arena_lab.sweep import grid, report, tables
from arena_lab.__main__ import main as lab
from arena_lab.search.ring_bounds import most_moves
from arena_lab.support.built import TOP

EXPERIMENTS = TOP / "experiments"
AGENTS = "examples/agents"
RING = f"{AGENTS}/ring.py {{nodes}}"
MAP = f"{AGENTS}/map.py {{nodes}} {{links}}"
RING_STEP = f"{AGENTS}/ring_step.py {{nodes}}"
RING3 = f"{AGENTS}/ring3.py {{nodes}}"
KNOWN_MAP = f"{AGENTS}/known_map.py"

Cells = Sequence[str]


class MadeTable(NamedTuple):
    """A table: its rows with their head, the commands that made it, and whether the
    Python model searched for its rows, which the engine then played again."""

    rows: List[Cells]
    commands: List[str]
    is_searched: bool = False


class TableRequest(NamedTuple):
    """Where files go, the words that choose the engine, and how many processes play a
    sweep."""

    out: pathlib.Path
    engine: List[str]
    workers: int = 1


def said_by(words: Sequence[str], table_request: TableRequest) -> str:
    """What a command of the lab says."""
    stream = io.StringIO()
    with contextlib.redirect_stdout(stream):
        status = lab([*words, *table_request.engine])
    if status not in (0, 1):
        sys.exit(f"{command_line(words)} ended with status {status}")
    return stream.getvalue()


def command_line(words: Sequence[str]) -> str:
    """Returns a command of the lab as typed in a shell."""
    words_in_quotes = [f'"{word}"' if " " in word else word for word in words]
    return f"./arena-lab {' '.join(words_in_quotes)}"


def groups_of_sweep(
    name: str, table_request: TableRequest
) -> Tuple[List[report.RunGroup], List[str]]:
    """The groups of a sweep, which is played now, and its command."""
    words = [
        "sweep",
        f"experiments/{name}.toml",
        "--out",
        str(table_request.out / name),
    ]
    said_by([*words, "--workers", str(table_request.workers)], table_request)
    spec = grid.read_grid(EXPERIMENTS / f"{name}.toml")
    return report.groups_of(
        tables.rows_in(table_request.out / name / tables.RUNS), spec
    ), [command_line([*words[:3], f"out/{name}"])]


def of_sweep(name: str) -> Callable[[TableRequest], MadeTable]:
    """Makes the table of a sweep: a row for each network, and of each scheduler the
    mean and the most moves."""

    def make(table_request: TableRequest) -> MadeTable:
        groups, commands = groups_of_sweep(name, table_request)
        return MadeTable(rows_of(groups), commands)

    return make


def rows_of(
    groups: Sequence[report.RunGroup], hunt_moves: Mapping[str, int] = {}
) -> List[Cells]:
    """Returns a row per network, with the most moves of hunts, if any. A mean has its
    confidence over all black holes, because the sweep draws them or has enough seeds to
    take each."""
    schedulers = list(dict.fromkeys(group.name[2] for group in groups))
    bound = grid_bound(groups)
    moves = [f"{name}: {what}" for name in schedulers for what in ("mean", "most")]
    if hunt_moves:
        moves.append("hunted: most")
    head = [
        "network",
        "agents",
        "runs",
        "solved",
        *moves,
        "most lost",
        bound,
        "most / bound",
    ]
    networks = list(dict.fromkeys(group.name[0] for group in groups))
    return [
        head,
        *(
            row_of([group for group in groups if group.name[0] == name], hunt_moves)
            for name in networks
        ),
    ]


def grid_bound(groups: Sequence[report.RunGroup]) -> str:
    """Returns the name of the bound whose number the groups contain."""
    return next(
        (
            name
            for name, bound in grid.BOUNDS.items()
            if all(group.bound == bound(group.nodes) for group in groups)
        ),
        "bound",
    )


def row_of(groups: Sequence[report.RunGroup], hunt_moves: Mapping[str, int]) -> Cells:
    network = groups[0].name[0]
    limit = max(
        [int(group.worst["moves"]) for group in groups] + [hunt_moves.get(network, 0)]
    )
    bound = groups[0].bound or 1
    cells = [
        cell
        for group in groups
        for cell in (
            f"{group.moves.mean:.1f} ± {group.moves.confidence:.1f}",
            group.worst["moves"],
        )
    ]
    if hunt_moves:
        cells.append(str(hunt_moves.get(network, "–")))
    return [
        network,
        str(groups[0].agents),
        str(sum(group.runs for group in groups)),
        str(sum(group.solved for group in groups)),
        *cells,
        str(max(group.lost for group in groups)),
        f"{bound:.0f}",
        f"{limit / bound:.2f}",
    ]


class Search(NamedTuple):
    """A command of the lab that searches schedules of a team on a network."""

    command: str
    network: str
    agent: str
    agents: int
    options: Sequence[str] = ()

    def words(self) -> List[str]:
        return [
            self.command,
            "--network",
            self.network,
            "--agents",
            str(self.agents),
            "--agent",
            self.agent,
            *self.options,
        ]

    def team(self) -> str:
        """Describes the team: number and file of its agents."""
        return f"{self.agents}, `{self.agent.partition(' ')[0].rpartition('/')[2]}`"


def hunts(runs: int = 0, agent: str = "") -> List[Search]:
    """The hunts for most moves, as their file says, or with another number of
    schedules, or by another search."""
    rows = tomllib.loads((EXPERIMENTS / "hunts.toml").read_text(encoding="utf-8"))
    extra = (
        "--objective",
        "moves",
        "--seed",
        str(rows["seed"]),
        "--runs",
        str(runs or rows["runs"]),
    )
    return [
        Search("hunt", network, agent or rows["agent"], rows["agents"], extra)
        for network in rows["networks"]
    ]


def hunted_most(hunt: Search, table_request: TableRequest) -> int:
    """The most moves that a hunt finds. It knows of no earlier finds, so it finds the
    same again."""
    folder = table_request.out / "hunts" / hunt.network.replace(":", "")
    with tempfile.TemporaryDirectory() as database:
        output = said_by(
            [*hunt.words(), "--keep", str(folder), "--database", database],
            table_request,
        )
    match = re.search(r"^the most moves: .* solved moves (\d+) lost \d+$", output, re.M)
    if not match:
        sys.exit(f"{command_line(hunt.words())}: {output}")
    return int(match[1])


def rings(table_request: TableRequest) -> MadeTable:
    """The sweep of rings, with the most moves that were hunted on each."""
    groups, commands = groups_of_sweep("rings", table_request)
    all_hunts = hunts()
    hunt_moves = {hunt.network: hunted_most(hunt, table_request) for hunt in all_hunts}
    return MadeTable(
        rows_of(groups, hunt_moves),
        [*commands, command_line(all_hunts[0].words())],
        is_searched=True,
    )


# rings on which the searches by halves and by thirds are compared
SIZES = (8, 16, 27, 32, 64, 81, 128, 243)
THIRDS_HEAD = (
    "network",
    "halves: drawn",
    "hunted",
    "counted",
    "thirds: drawn",
    "hunted",
    "counted",
    "attained",
    "3 n log3 n",
    "thirds / it",
    "thirds / halves",
)


def thirds(table_request: TableRequest) -> MadeTable:
    """The most moves of the search by halves and of the search by thirds: drawn,
    hunted, and counted."""
    groups, commands = groups_of_sweep("thirds", table_request)
    sweep_moves = {
        (group.name[0], group.name[1]): group.worst["moves"] for group in groups
    }
    halves = hunts()
    all_thirds = hunts(agent=RING3)
    hunt_moves = {
        (search.network, name): str(hunted_most(search, table_request))
        for name, searches in (("halves", halves), ("thirds", all_thirds))
        for search in searches
        if search.network in {f"ring:{nodes}" for nodes in SIZES}
    }
    rows = [thirds_row(nodes, sweep_moves, hunt_moves) for nodes in SIZES]
    return MadeTable(
        [THIRDS_HEAD, *rows],
        [*commands, command_line(all_thirds[0].words())],
        is_searched=True,
    )


def thirds_row(
    nodes: int,
    sweep_moves: Mapping[Tuple[str, str], str],
    hunt_moves: Mapping[Tuple[str, str], str],
) -> Cells:
    network = f"ring:{nodes}"
    halves = most_moves(nodes)
    table = Table(nodes, of_ring3)
    counted_moves = play_search(ring3.search, nodes, table.runs()[0]).moves
    cells = [
        [
            sweep_moves.get((network, name), "–"),
            hunt_moves.get((network, name), "–"),
            str(moves),
        ]
        for name, moves in (("halves", halves), ("thirds", table.moves()))
    ]
    return [
        network,
        *cells[0],
        *cells[1],
        str(counted_moves),
        f"{bound(nodes):.0f}",
        f"{table.moves() / bound(nodes):.2f}",
        f"{table.moves() / halves:.2f}",
    ]


CHARTS_HEAD = (
    "network",
    "agents",
    "runs",
    "solved",
    "map.py: mean",
    "most",
    "chart.py: mean",
    "most",
    "most lost",
    "n m",
    "chart.py: most / n m",
)


def charts(table_request: TableRequest) -> MadeTable:
    """The moves of agents that keep a map, and of agents that keep a chart."""
    groups, commands = groups_of_sweep("charts", table_request)
    return MadeTable(charts_rows(groups), commands)


def charts_rows(groups: Sequence[report.RunGroup]) -> List[Cells]:
    """A row for each network, on which m are the links."""
    all_networks = grid.read_grid(EXPERIMENTS / "charts.toml").networks
    rows: List[Cells] = [CHARTS_HEAD]
    for name in dict.fromkeys(group.name[0] for group in groups):
        cells = row_of([group for group in groups if group.name[0] == name], {})
        links = len(all_networks[name].links)
        bound = all_networks[name].nodes * links
        rows.append([*cells[:-2], str(bound), f"{int(cells[-4]) / bound:.2f}"])
    return rows


# agents written as steps are explored by their memories, and programs by their
# histories, which are many more
RINGS_EXPLORED = (3, 4, 5, 6, 7, 8, 9, 16, 24, 32)
# more commands and more states than a match of these has
WIDE = ("--quota", "65535", "--max-states", "1000000000")
EXPLORED = [
    *(
        Search("explore", f"ring:{nodes}", RING_STEP, 2, WIDE)
        for nodes in RINGS_EXPLORED
    ),
    Search("explore", "ring:6", RING3, 2, ("--board", "48", *WIDE)),
    Search("explore", "hypercube:3", KNOWN_MAP, 2, WIDE),
]
EXPLORED_HEAD = ("network", "agents", "states", "most moves", "most lost", "seconds")


def explored_row(search: Search, table_request: TableRequest) -> Cells:
    """Returns the row of an exhaustive exploration of one network."""
    output = said_by(
        [*search.words(), "--keep", str(table_request.out / "explored")], table_request
    )
    states = re.search(
        r"^(\d+) states in (\S+) s: every schedule that the lab tried solves, ",
        output,
        re.M,
    )
    match = re.search(
        r"^most moves (\d+), most agents lost (\d+), most turns ", output, re.M
    )
    if not states or not match:
        sys.exit(f"{command_line(search.words())}: {output}")
    return [search.network, search.team(), states[1], match[1], match[2], states[2]]


def exploration_table(table_request: TableRequest) -> MadeTable:
    rows = [explored_row(search, table_request) for search in EXPLORED]
    return MadeTable([EXPLORED_HEAD, *rows], [command_line(EXPLORED[0].words())])


MODULE = "wasm/ring.wasm"
RINGS_OF_MODULE = (8, 16, 24, 27, 32, 48, 64)
MODULES_HEAD = (
    "network",
    "module",
    "states",
    "most moves",
    "most lost",
    "processor, s",
    "memory, MB",
)


def module_row(nodes: int) -> Cells:
    """What was found of all schedules on a ring whose agents run the sample module."""
    matches = explore.measured_by_module(f"ring:{nodes}", MODULE, explore.STATES)
    return [
        f"ring:{nodes}",
        f"`{MODULE}:{nodes}`",
        str(sum(match.states for match in matches)),
        str(max(match.moves for match in matches)),
        str(max(match.lost for match in matches)),
        f"{sum(match.program for match in matches):.2f}",
        f"{max(match.memory for match in matches):.0f}",
    ]


def modules(table_request: TableRequest) -> MadeTable:
    search = Search(
        "explore",
        f"ring:{RINGS_OF_MODULE[-1]}",
        f"{AGENTS}/{MODULE}:{{nodes}}",
        2,
        WIDE,
    )
    return MadeTable(
        [MODULES_HEAD, *map(module_row, RINGS_OF_MODULE)],
        [command_line(search.words())],
    )


TOO_FEW = [
    Search("hunt", "ring:8", RING, 1),
    Search("hunt", "hypercube:3", KNOWN_MAP, 1),
    Search("hunt", "hypercube:3", MAP, 3),
    Search("hunt", "torus:3x3", MAP, 4),
]
TOO_FEW_HEAD = (
    "network",
    "agents",
    "needed",
    "schedules tried",
    "verdict",
    "choices of the smallest schedule",
)


def too_few_row(hunt: Search, table_request: TableRequest) -> Cells:
    """How a team with an agent too few fails."""
    folder = (
        table_request.out / "too_few" / f"{hunt.network.replace(':', '')}_{hunt.agents}"
    )
    output = said_by(
        [
            *hunt.words(),
            "--keep",
            str(folder),
            "--database",
            str(table_request.out / "hunted"),
        ],
        table_request,
    )
    match = re.search(
        r"^(\d+) schedules were tried: the team fails, first under number \d+$",
        output,
        re.M,
    )
    verdict = re.search(r"^it comes to: home 0 (holes .*)$", output, re.M)
    choices = re.search(r": (\d+) choices; again by", output)
    if not match or not verdict or not choices:
        sys.exit(
            f"{command_line(hunt.words())} found no schedule after which the team fails: {output}"
        )
    return [
        hunt.network,
        hunt.team(),
        str(hunt.agents + 1),
        match[1],
        verdict[1],
        choices[1],
    ]


def too_few(table_request: TableRequest) -> MadeTable:
    rows = [too_few_row(hunt, table_request) for hunt in TOO_FEW]
    return MadeTable(
        [TOO_FEW_HEAD, *rows],
        [command_line(hunt.words()) for hunt in TOO_FEW],
        is_searched=True,
    )


TABLES: Dict[str, Callable[[TableRequest], MadeTable]] = {
    "rings": rings,
    "thirds": thirds,
    "large-rings": of_sweep("large_rings"),
    "explored": exploration_table,
    "modules": modules,
    "no-map": of_sweep("no_map"),
    "large-no-map": of_sweep("large_no_map"),
    "charts": charts,
    "known-map": of_sweep("known_map"),
    "large-known-map": of_sweep("large_known_map"),
    "dividing": of_sweep("dividing"),
    "too-few": too_few,
}
