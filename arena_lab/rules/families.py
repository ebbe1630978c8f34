"""Families of networks: each biconnected network of some sizes, with each home base, each
black hole, and all numberings of the ports or some that are drawn.

Matches whose networks differ by the numbers of the nodes alone are one match: agents see
ports, and no numbers of nodes. A match is given in a normal form: the home base is node
0, and the nodes have the order of a breadth-first search that takes ports in order.
"""
import collections
import itertools
import math
import re
import shutil
import subprocess
from typing import (
    Any,
    Dict,
    Iterator,
    List,
    Mapping,
    NamedTuple,
    Optional,
    Sequence,
    Set,
    Tuple,
    Union,
)

from arena_lab.rules import draws
from arena_lab.rules.networks import Link, Network
from arena_lab.support.faults import ArenaError
from arena_lab.support.missing import require

# networkx has all graphs up to this size; nauty's geng lists larger ones
ATLAS_NODES = 7
LEAST_NODES = 3
ALL = "all"
# how many numberings of ports are tried out in all
MAX_NUMBERINGS = 2_000_000


class FamilyError(ArenaError):
    """A family that cannot be listed; says what to change."""


class FamilyPorts(NamedTuple):
    """How many numberings of the ports are drawn for each network, home base and black
    hole; None for all of them."""

    draws: Optional[int] = None


class Family(NamedTuple):
    """A family: sizes, the greatest degree (None: any), and numberings of the ports."""

    sizes: range
    max_degree: Optional[int] = None
    ports: FamilyPorts = FamilyPorts()


class FamilyMatch(NamedTuple):
    """A match of a family in its normal form. The home base is node 0."""

    number: int
    network: Network
    hole: int


def sizes_of(word: str) -> range:
    """Parses `nodes:5` or `nodes:3..5`."""
    match = re.fullmatch(r"nodes:(\d+)(?:\.\.(\d+))?", word)
    if not match:
        raise FamilyError(f"{word} is no family: write nodes:N or nodes:N..M")
    first = int(match[1])
    last = int(match[2] or first)
    if not LEAST_NODES <= first <= last:
        raise FamilyError(
            f"{word}: a network has {LEAST_NODES} nodes or more, and N..M goes up"
        )
    return range(first, last + 1)


def ports_of(word: str) -> Union[FamilyPorts, draws.Ports]:
    """Parses the numberings of ports, of a family or of one network."""
    match = re.fullmatch(r"drawn:([1-9]\d*)", word)
    if match or word == ALL:
        return FamilyPorts(int(match[1]) if match else None)
    return draws.ports_of(word)


def matches_of(family: Family) -> Iterator[FamilyMatch]:
    """Lists the matches of a family, each once."""
    if family.ports.draws is None:
        check_numberings(family)
    number = itertools.count()
    for nodes in family.sizes:
        for graph in graphs_of(nodes, family.max_degree):
            keys: Set[Tuple[int, Tuple[Link, ...]]] = set()
            for home, hole in placements_of(graph):
                for network in numberings_of(graph, family.ports.draws):
                    match = normal_form(network, home, hole)
                    key = match.hole, tuple(match.network.links)
                    if key not in keys:
                        keys.add(key)
                        yield match._replace(number=next(number))


def check_numberings(family: Family) -> None:
    """Refuses a family whose networks have too many numberings of their ports."""
    count = 0
    for nodes in family.sizes:
        for graph in graphs_of(nodes, family.max_degree):
            numberings = math.prod(
                math.factorial(degree) for _, degree in graph.degree()
            )
            count += numberings * len(list(placements_of(graph)))
            if count > MAX_NUMBERINGS:
                raise FamilyError(
                    f"networks of {nodes} nodes have too many numberings of their ports: draw some by --ports "
                    "drawn:K, or bound the degree by --degree-at-most"
                )


def graphs_of(nodes: int, max_degree: Optional[int]) -> Iterator[Any]:
    """Lists the biconnected graphs of a size, each once but for the names of nodes."""
    networkx = require("networkx")
    all_graphs = (
        (graph for graph in networkx.graph_atlas_g() if len(graph) == nodes)
        if nodes <= ATLAS_NODES
        else map(networkx.from_graph6_bytes, geng_lines(nodes, max_degree))
    )
    for graph in all_graphs:
        degrees = [degree for _, degree in graph.degree()]
        if networkx.is_biconnected(graph) and max(degrees) <= (max_degree or nodes):
            yield graph


def geng() -> Optional[str]:
    """Returns the path of nauty's geng, or None if it is not installed."""
    return shutil.which("geng") or shutil.which("nauty-geng")


def geng_lines(nodes: int, max_degree: Optional[int]) -> Iterator[bytes]:
    """Lists the biconnected graphs of a size by nauty's geng, as lines of graph6."""
    program = geng()
    if program is None:
        raise FamilyError(
            f"networks of more than {ATLAS_NODES} nodes are listed by geng: install Debian's package nauty"
        )
    degree = [f"-D{max_degree}"] if max_degree else []
    words = [program, "-q", "-C", *degree, str(nodes)]
    with subprocess.Popen(words, stdout=subprocess.PIPE) as process:
        assert process.stdout is not None
        for line in process.stdout:
            yield line.strip()


def placements_of(graph: Any) -> Iterator[Tuple[int, int]]:
    """Lists the pairs of home base and black hole, one of each class of pairs that an
    automorphism of the graph maps to each other."""
    isomorphism = require("networkx.algorithms.isomorphism")
    automorphisms: List[Dict[int, int]] = list(
        isomorphism.GraphMatcher(graph, graph).isomorphisms_iter()
    )
    classes: Set[Tuple[int, int]] = set()
    for home, hole in itertools.permutations(sorted(graph), 2):
        least_image = min((image[home], image[hole]) for image in automorphisms)
        if least_image not in classes:
            classes.add(least_image)
            yield home, hole


def numberings_of(graph: Any, draw_count: Optional[int]) -> Iterator[Network]:
    """Lists the networks of a graph, one for each numbering of ports, or for the first
    `draw_count` seeds of numberings."""
    neighbours = {node: sorted(graph[node]) for node in sorted(graph)}
    if draw_count is not None:
        network = network_of(neighbours)
        yield from (draws.renumber(network, number) for number in range(draw_count))
        return
    for rows in itertools.product(*map(itertools.permutations, neighbours.values())):
        yield network_of(dict(zip(neighbours, rows)))


def network_of(neighbours: Mapping[int, Sequence[int]]) -> Network:
    """Returns the network whose nodes have these neighbours in the order of ports."""
    ports = {
        (node, neighbour): port
        for node, row in neighbours.items()
        for port, neighbour in enumerate(row)
    }
    links = [
        (node, port, neighbour, ports[neighbour, node])
        for (node, neighbour), port in ports.items()
        if node < neighbour
    ]
    return Network(len(neighbours), links)


def normal_form(network: Network, home: int, hole: int) -> FamilyMatch:
    """Returns the match with its nodes in the order of a breadth-first search from the
    home base. Two matches have one normal form exactly if they differ by the numbers of
    their nodes alone."""
    far = {(v, p): w for v, p, w, _ in network.links}
    far.update({(w, q): v for v, _, w, q in network.links})
    degrees = network.degrees()
    order = {home: 0}
    queue = collections.deque([home])
    while queue:
        node = queue.popleft()
        for port in range(degrees[node]):
            if far[node, port] not in order:
                order[far[node, port]] = len(order)
                queue.append(far[node, port])
    links = sorted(
        min((order[v], p, order[w], q), (order[w], q, order[v], p))
        for v, p, w, q in network.links
    )
    return FamilyMatch(0, Network(network.nodes, links), order[hole])
