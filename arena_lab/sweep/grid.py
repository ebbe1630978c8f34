"""A sweep's file: which teams are played on which networks, with which black holes,
under which schedules.

    title = "Two agents on rings"
    networks = ["ring:8", "ring:16", "ring:32"]
    holes = "by seed"
    schedulers = ["fair", "slow-agents"]
    seeds = 20
    bound = "2 n log2 n"

    [[team]]
    name = "ring"
    agents = 2
    agent = "examples/agents/ring.py {nodes}"

    title         what the report is called
    networks      names of networks, as --network takes them, or files
    ports         "shuffled:SEED" numbers the ports of each node anew; may be absent
    home          the home base (0)
    holes         one of ("by seed"):
                  "by seed"   seeds take the nodes as black holes in their order, one after the other, as `run` does
                  "drawn"     the same in an order that is drawn for each network, so that few seeds are a sample
                  "all"       each node in turn, with all seeds
                  a number    this number of nodes, drawn for each network, with all seeds
                  a list      these nodes, each in turn; in the place of a node there may be a list of nodes that are
                              all black holes, or [] for no black hole
    dark          dark links, each by the node and the port of one of its ends, such as [[0, 1]] ([])
    schedulers    as --scheduler takes them (["fair"])
    seeds         how many seeds each scheduler gets (1)
    quota, board  commands of an agent, and bytes of a whiteboard (1000, 4096)
    bound         moves that the plots show beside: "2 n log2 n", "n log2 n", "n^2", or what is proved of two agents
                  that divide a network, "6 (n - 2) R + 2 (n - 1)", R the rounded up log2 (n - 1); may be absent

Each [[team]] has a `name`, `agents`, a number or "degree" for one more than the
network's greatest degree (2), and either `agent` or `command`, the words that --agent
or --command takes; of a WebAssembly module either.
"""
import functools
import math
import pathlib
import random
from typing import (
    Any,
    Callable,
    Dict,
    Iterator,
    List,
    Mapping,
    NamedTuple,
    Optional,
    Tuple,
    Union,
)

from arena_lab.play.agent_files import digests
from arena_lab.play.teams import (
    BOARD,
    INSIDE,
    OUTSIDE,
    QUOTA,
    AgentWords,
    agent_named,
    digests_of,
)
from arena_lab.rules import draws, networks
from arena_lab.rules.draws import DRAWN, PORTS_ARE
from arena_lab.rules.fixtures import Fixture, MatchError, check_setup, fixture_of
from arena_lab.rules.limits import MAX_AGENTS, MAX_BOARD, MAX_QUOTA
from arena_lab.rules.model import Place, Setup
from arena_lab.rules.networks import Network, NetworkError
from arena_lab.support import fields
from arena_lab.support.fields import (
    Field,
    FileFormatError,
    is_count,
    is_number,
    is_text,
    is_texts,
)

BY_SEED = "by seed"
ALL = "all"
DEGREE = "degree"
BOUNDS: Dict[str, Callable[[float], float]] = {
    "2 n log2 n": lambda nodes: 2 * nodes * math.log2(nodes),
    "n log2 n": lambda nodes: nodes * math.log2(nodes),
    "n^2": lambda nodes: nodes**2,
    "6 (n - 2) R + 2 (n - 1)": lambda nodes: (
        6 * (nodes - 2) * math.ceil(math.log2(nodes - 1)) + 2 * (nodes - 1)
    ),
}
HOLES_ARE = f'"{BY_SEED}", "{DRAWN}", "{ALL}", how many to draw, or a list of nodes and of lists of nodes'


def is_holes(value: Any) -> bool:
    return (
        value in (BY_SEED, DRAWN, ALL)
        or is_count(value)
        or isinstance(value, list)
        and value != []
        and all(
            is_number(node) or isinstance(node, list) and all(map(is_number, node))
            for node in value
        )
    )


def is_dark(value: Any) -> bool:
    return isinstance(value, list) and all(
        isinstance(link_end, list)
        and len(link_end) == 2
        and all(map(is_number, link_end))
        for link_end in value
    )


FIELDS = {
    "title": fields.TEXT,
    "networks": Field(is_texts, 'a list of names, such as ["ring:8"]'),
    "ports": Field(lambda value: value is None or is_text(value), PORTS_ARE, None),
    "home": Field(is_number, "a node", 0),
    "holes": Field(is_holes, HOLES_ARE, BY_SEED),
    "dark": Field(is_dark, "a list of nodes with ports, such as [[0, 1]]", []),
    "schedulers": Field(is_texts, 'a list of names, such as ["fair"]', ["fair"]),
    "seeds": fields.count(1),
    "quota": fields.up_to(MAX_QUOTA, QUOTA),
    "board": fields.up_to(MAX_BOARD, BOARD, 0),
    "bound": fields.one_of(list(BOUNDS), None),
    "team": fields.tables("team"),
}
AGENTS = Field(
    lambda value: value == DEGREE or is_count(value) and value <= MAX_AGENTS,
    f'1 to {MAX_AGENTS}, or "{DEGREE}"',
    2,
)
OWN_FIELDS = {
    "agents": fields.maybe(AGENTS),
    "quota": fields.maybe(fields.up_to(MAX_QUOTA, QUOTA)),
    "board": fields.maybe(fields.up_to(MAX_BOARD, BOARD, 0)),
    "ports": fields.one_of([draws.GIVEN, DRAWN], None),
}
MAY_BE_TEXT = Field(lambda value: value is None or is_text(value), "a text", None)
TEAM = {
    "name": fields.TEXT,
    "agents": AGENTS,
    INSIDE: MAY_BE_TEXT,
    OUTSIDE: MAY_BE_TEXT,
}


class TeamRow(NamedTuple):
    """A team: its name, how many agents it has, and how each is played."""

    name: str
    agents: Union[int, str]
    words: AgentWords


class Case(NamedTuple):
    """A run of the sweep: its number, and what is played. It may have a home base of
    its own, and a seed by which the ports of each node are numbered anew."""

    number: int
    network: str
    holes: Tuple[int, ...]
    team: TeamRow
    scheduler: str
    seed: int
    home: Optional[int] = None
    ports: Optional[int] = None

    @property
    def hole(self) -> str:
        """Its black holes, as a row has them."""
        return " ".join(map(str, self.holes))


class NetworkTerms(NamedTuple):
    """Overrides for one network; None keeps the value of the grid."""

    agents: Union[None, int, str] = None
    quota: Optional[int] = None
    board: Optional[int] = None
    ports: Optional[str] = None


class Grid(NamedTuple):
    """The contents of a sweep's file."""

    title: str
    names: List[str]
    networks: Dict[str, Network]
    home: int
    holes: Union[str, int, List[Tuple[int, ...]]]
    dark: List[Place]
    schedulers: List[str]
    seeds: int
    quota: int
    board: int
    bound: Optional[str]
    teams: List[TeamRow]
    overrides: Dict[str, NetworkTerms] = {}

    def cases(self, secret: str = "") -> Iterator[Case]:
        """All runs, in the order of their numbers. Black holes are drawn from a secret,
        if there is one."""
        number = 0
        for name in self.names:
            for holes in self._holes(name, secret):
                for team in self.teams:
                    for scheduler in self.schedulers:
                        for seed in range(self.seeds):
                            yield Case(
                                number,
                                name,
                                holes[seed % len(holes)],
                                team,
                                scheduler,
                                seed,
                            )
                            number += 1

    def fixture(self, case: Case) -> Fixture:
        """The match of a run."""
        network = self.networks[case.network]
        terms = self.terms_on(case.network)
        agents = terms.agents or case.team.agents
        count = max(network.degrees()) + 1 if isinstance(agents, str) else agents
        home = self.home if case.home is None else case.home
        match = draws.DrawnMatch(
            draws.renumber(network, case.ports), home, list(case.holes)
        )
        board = self.board if terms.board is None else terms.board
        setup = match.setup(count, terms.quota or self.quota, board, self.dark)
        return fixture_of(setup, case.number)

    def terms_on(self, network: str) -> NetworkTerms:
        return self.overrides.get(network, NetworkTerms())

    def files(self) -> Dict[str, str]:
        """The digest of each file that the runs depend on."""
        other_digests = digests([*self.schedulers, *self.names])
        return {**other_digests, **digests_of([team.words for team in self.teams])}

    def _holes(self, name: str, secret: str) -> List[List[Tuple[int, ...]]]:
        """The black holes of a network: each seed takes the next of these lists."""
        if isinstance(self.holes, list):
            return [[holes] for holes in self.holes]
        network = self.networks[name]
        other_nodes = draws.others_than(self.home, network)
        rng = random.Random(f"{secret}{name} {self.holes}")
        count = len(other_nodes)
        if isinstance(self.holes, int):
            count = min(self.holes, count)
            other_nodes = sorted(draws.sample_nodes(network, self.home, count, rng))
        elif self.holes == DRAWN or self.holes == BY_SEED and secret:
            other_nodes = draws.sample_nodes(network, self.home, count, rng)
        hole_lists: List[Tuple[int, ...]] = [(hole,) for hole in other_nodes]
        return (
            [hole_lists]
            if self.holes in (BY_SEED, DRAWN)
            else [[hole_list] for hole_list in hole_lists]
        )


def read_grid(path: pathlib.Path) -> Grid:
    """The grid of a sweep's file."""
    try:
        return grid_of(text_in(path))
    except FileFormatError as fault:
        raise FileFormatError(f"{path}: {fault}") from None


def text_in(path: pathlib.Path) -> str:
    """The text of a file."""
    try:
        return path.read_text(encoding="utf-8")
    except FileNotFoundError:
        raise FileFormatError("there is no such file") from None
    except UnicodeDecodeError:
        raise FileFormatError("it is no text in UTF-8") from None


@functools.lru_cache(maxsize=4)
def grid_of(text: str) -> Grid:
    """The grid that a sweep's text says."""
    values = fields.values_of(fields.table_of(text), FIELDS, "it")
    rows = fields.unlike(
        [fields.values_of(row, TEAM, "a team") for row in values["team"]], "team"
    )
    return grid_in(values, list(map(team_of, rows)))


def grid_in(
    values: Dict[str, Any], teams: List[TeamRow], folder: pathlib.Path = pathlib.Path()
) -> Grid:
    """The grid of these values and teams. Files of networks are looked for in the
    folder."""
    grid = Grid(
        names=values["networks"],
        networks={
            name: load_network(name, ports_in(values), folder)
            for name in values["networks"]
        },
        holes=holes_of(values["holes"]),
        dark=[(v, p) for v, p in values["dark"]],
        bound=values.get("bound"),
        teams=teams,
        overrides=own_in(values.get("conditions", {}), values["networks"]),
        **{
            name: values[name]
            for name in ("title", "home", "schedulers", "seeds", "quota", "board")
        },
    )
    check_nodes(grid)
    return grid


def own_in(values: Mapping[str, Any], names: List[str]) -> Dict[str, NetworkTerms]:
    """Parses the overrides of each network."""
    for name, row in values.items():
        if name not in names or not isinstance(row, dict):
            raise FileFormatError(
                f'conditions has {name}: write [conditions."NAME"] with a network'
            )
    return {
        name: NetworkTerms(**fields.values_of(row, OWN_FIELDS, f"conditions of {name}"))
        for name, row in values.items()
    }


def ports_in(values: Mapping[str, Any]) -> Optional[int]:
    """Returns the seed of the numbering of ports in all matches, or None."""
    try:
        ports = draws.ports_of(values["ports"] or draws.GIVEN)
    except NetworkError:
        raise FileFormatError(
            f"ports must be {PORTS_ARE}, and not {values['ports']}"
        ) from None
    if isinstance(ports, str):
        raise FileFormatError("a sweep draws no ports: name shuffled:SEED")
    return ports


def load_network(name: str, ports: Optional[int], folder: pathlib.Path) -> Network:
    """The network of a name or a file, with its ports numbered anew if there is a
    seed."""
    try:
        network = networks.network_named(name if ":" in name else str(folder / name))
    except (KeyError, TypeError, ValueError):
        raise FileFormatError(
            f"networks has {name}, which is no network file: `arena check` says what is wrong"
        ) from None
    return draws.renumber(network, ports)


def check_nodes(grid: Grid) -> None:
    """Refuses a home base or a black hole that is not in the network."""
    hole_nodes = (
        [hole for holes in grid.holes for hole in holes]
        if isinstance(grid.holes, list)
        else []
    )
    for name, network in grid.networks.items():
        if grid.home >= network.nodes:
            raise FileFormatError(
                f"home is {grid.home}, and {name} has the nodes 0 to {network.nodes - 1}"
            )
        for hole in hole_nodes:
            if hole >= network.nodes or hole == grid.home:
                raise FileFormatError(
                    f"holes has {hole}, and a black hole of {name} is a node up to {network.nodes - 1} "
                    "other than the home base"
                )
        check_setups(grid, name, network)


def check_setups(grid: Grid, name: str, network: Network) -> None:
    """Refuses dark links that the network does not have, and what is named twice."""
    for holes in grid.holes if isinstance(grid.holes, list) else [()]:
        try:
            check_setup(
                Setup(
                    network.nodes,
                    network.links,
                    grid.home,
                    list(holes),
                    1,
                    grid.quota,
                    grid.board,
                    grid.dark,
                )
            )
        except MatchError as fault:
            raise FileFormatError(f"{name}: {fault}") from None


def team_of(row: Dict[str, Any]) -> TeamRow:
    """The team of a [[team]] table."""
    kinds = [kind for kind in (INSIDE, OUTSIDE) if row[kind] is not None]
    if len(kinds) != 1:
        raise FileFormatError(
            f"each team needs either {INSIDE} or {OUTSIDE}, the words that play an agent"
        )
    return TeamRow(row["name"], row["agents"], agent_named(kinds[0], row[kinds[0]]))


def holes_of(value: Any) -> Any:
    """Normalises black holes: a tuple per match."""
    return (
        [
            tuple(sorted(holes)) if isinstance(holes, list) else (holes,)
            for holes in value
        ]
        if isinstance(value, list)
        else value
    )
