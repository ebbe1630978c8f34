"""Networks by name, by a seed, or out of a file.

    ring:N          A ring of N nodes. Port 0 leads to the next node, port 1 to the node before.
    hypercube:D     2^D nodes. Port I leads to the node whose number differs in bit I.
    complete:N      N nodes, each joined to all others. Port P of node V leads to node V + P + 1, modulo N.
    torus:RxC       R rows and C columns. Ports 0 to 3 lead east, west, south and north.
    grid:RxC        The same without the links around. A node at the edge has fewer ports, in the same order.
    wheel:N         A hub, node 0, and a ring of N nodes around it. Port P of the hub leads to node P + 1. A node of the
                    ring has ports 0 and 1 to its neighbours, and port 2 to the hub.
    petersen:NxK    The generalized Petersen graph of 2N nodes; petersen:5x2 is Petersen's. Nodes 0 to N - 1 are a ring,
                    whose ports 0 and 1 lead on and back. Ports 0 and 1 of the others lead on and back by K places. Port
                    2 joins node V to node N + V.
    ccc:D           The cube-connected cycles of D 2^D nodes. Node D W + I stands at place I of the cycle W. Its ports 0
                    and 1 lead on and back along the cycle, and port 2 to the cycle whose number differs in bit I.
    random:SEED     3 to 24 nodes with 2 to 6 ports each, drawn by the seed. Ports are numbered by chance.
    random:N:degK:seedS
                    N nodes with K ports each, drawn by the seed S. Ports are numbered by chance.
    FILE            A network file, as `arena check` reads it.
    FILE.graphml    A graph in GraphML. Its nodes keep their order, and a node's ports have the order of its links.
"""
import collections
import io
import pathlib
import random
import re
import tomllib
import warnings
from typing import Any, Callable, Collection, Dict, List, NamedTuple, Sequence, Tuple
from xml.parsers import expat

from arena_lab.rules.limits import MAX_NODES, SMALL_NODES
from arena_lab.rules.model import Place, link_of
from arena_lab.support.faults import ArenaError
from arena_lab.support.missing import require

Link = Tuple[int, int, int, int]

NAMES = (
    "ring:N, hypercube:D, complete:N, torus:RxC, grid:RxC, wheel:N, petersen:NxK, ccc:D, random:SEED, "
    "random:N:degK:seedS"
)
GRAPHML = ".graphml"
# bytes of a file of GraphML, and characters of a fault that are shown
MAX_GRAPHML = 16 << 20
MAX_SHOWN = 100
LARGEST = 24
LARGEST_DEGREE = 6


def places_into(links: Sequence[Link], nodes: Collection[int]) -> List[Place]:
    """Returns the link ends (node, port) that lead to one of these nodes. Nobody
    arrives at a node if all links to it are held."""
    return sorted(
        [(v, p) for v, p, w, _ in links if w in nodes]
        + [(w, q) for v, _, w, q in links if v in nodes]
    )


class Network(NamedTuple):
    """A network: how many nodes, and its links as (node, port, node, port)."""

    nodes: int
    links: List[Link]

    def degrees(self) -> List[int]:
        """Returns how many ports each node has."""
        degrees = [0] * self.nodes
        for v, _, w, _ in self.links:
            degrees[v] += 1
            degrees[w] += 1
        return degrees


class NetworkError(ArenaError):
    """A name that names no network; says what does."""


class NetworkFileError(NetworkError, ValueError):
    """A file that is of another kind."""


def ring(nodes: int) -> Network:
    return Network(nodes, [(v, 0, (v + 1) % nodes, 1) for v in range(nodes)])


def hypercube(dimension: int) -> Network:
    return of_neighbours(
        [[v ^ 1 << bit for bit in range(dimension)] for v in range(2**dimension)]
    )


def complete(nodes: int) -> Network:
    return of_neighbours(
        [[(v + port + 1) % nodes for port in range(nodes - 1)] for v in range(nodes)]
    )


def torus(rows: int, columns: int) -> Network:
    links = []
    for node in range(rows * columns):
        row, column = divmod(node, columns)
        links.append((node, 0, row * columns + (column + 1) % columns, 1))
        links.append((node, 2, (row + 1) % rows * columns + column, 3))
    return Network(rows * columns, links)


def grid(rows: int, columns: int) -> Network:
    """A grid: a torus without its wrap-around links."""
    near = [
        [
            node + step
            for step, is_there in (
                (1, node % columns < columns - 1),
                (-1, node % columns > 0),
                (columns, node + columns < rows * columns),
                (-columns, node >= columns),
            )
            if is_there
        ]
        for node in range(rows * columns)
    ]
    return of_neighbours(near)


def wheel(rim: int) -> Network:
    """A wheel: a ring with a hub linked to each node."""
    return of_neighbours(
        [
            [*range(1, rim + 1)],
            *([node % rim + 1, (node - 2) % rim + 1, 0] for node in range(1, rim + 1)),
        ]
    )


def petersen(nodes: int, step: int) -> Network:
    """The generalized Petersen graph: two rings, by places of one and of another step,
    whose nodes are joined."""
    if not 1 <= step < nodes / 2:
        raise ValueError("no such network")
    return of_neighbours(
        [
            [*((index + by) % nodes + base for by in (pace, -pace)), index + other_base]
            for base, other_base, pace in ((0, nodes, 1), (nodes, 0, step))
            for index in range(nodes)
        ]
    )


def of_neighbours(near: Sequence[Sequence[int]]) -> Network:
    """The network in which port P of node V leads to the node at place P of V's
    list."""
    return Network(
        len(near),
        [
            (v, p, w, near[w].index(v))
            for v, ends in enumerate(near)
            for p, w in enumerate(ends)
            if v < w
        ],
    )


def cube_connected_cycles(dimension: int) -> Network:
    """A hypercube with a cycle in the place of each node."""
    links = []
    for node in range(dimension * 2**dimension):
        cycle, spot = divmod(node, dimension)
        links.append((node, 0, cycle * dimension + (spot + 1) % dimension, 1))
        if not cycle >> spot & 1:
            links.append((node, 2, (cycle | 1 << spot) * dimension + spot, 2))
    return Network(dimension * 2**dimension, links)


def regular(nodes: int, degree: int, seed: int) -> Network:
    """A network drawn among those whose nodes all have this degree. It may have a cut
    node: ask `cut_of`."""
    if nodes > MAX_NODES:
        raise NetworkError(f"a network has 3 to {MAX_NODES} nodes, and not {nodes}")
    if nodes * degree % 2 or not 2 <= degree < nodes:
        raise ValueError("no such network")
    graph = require("networkx").random_regular_graph(degree, nodes, seed=seed)
    pairs = sorted((min(pair), max(pair)) for pair in graph.edges)
    return Network(nodes, number_ports(nodes, pairs, random.Random(seed)))


def cut_of(network: Network) -> str:
    """Returns why the network is not biconnected, or ""."""
    networkx = require("networkx")
    graph = networkx.Graph()
    graph.add_nodes_from(range(network.nodes))
    graph.add_edges_from((v, w) for v, _, w, _ in network.links)
    if not networkx.is_connected(graph):
        apart = sorted(min(part) for part in networkx.connected_components(graph))
        return f"no path joins node {apart[0]} to node {apart[1]}"
    cuts = sorted(networkx.articulation_points(graph))
    return f"without node {cuts[0]} some other nodes are apart" if cuts else ""


def draw_network(rng: random.Random, largest: int = LARGEST) -> Network:
    """A network made of a ring by adding ears, which makes every biconnected one, and
    then some links by chance."""
    nodes = rng.randint(3, largest)
    size = rng.randint(3, nodes)
    pairs = [(v, (v + 1) % size) for v in range(size)]
    degree = [2] * size + [0] * (nodes - size)
    while size < nodes:
        one_node, other_node = rng.sample(
            [v for v in range(size) if degree[v] < LARGEST_DEGREE], 2
        )
        new = rng.randint(1, nodes - size)
        path = [one_node, *range(size, size + new), other_node]
        pairs += list(zip(path, path[1:]))
        for v in path[:-1] + path[1:]:
            degree[v] += 1
        size += new
    for _ in range(rng.choice((0, nodes // 2, 3 * nodes))):
        one_node, other_node = rng.sample(range(nodes), 2)
        if max(degree[one_node], degree[other_node]) < LARGEST_DEGREE and not {
            (one_node, other_node),
            (other_node, one_node),
        } & set(pairs):
            pairs.append((one_node, other_node))
            degree[one_node] += 1
            degree[other_node] += 1
    return Network(nodes, number_ports(nodes, pairs, rng))


def number_ports(
    nodes: int, pairs: List[Tuple[int, int]], rng: random.Random
) -> List[Link]:
    """The links between these pairs, each node's ports being numbered by chance."""
    degrees = collections.Counter(node for pair in pairs for node in pair)
    ports: Dict[int, List[int]] = {
        node: list(range(degrees[node])) for node in range(nodes)
    }
    for labels in ports.values():
        rng.shuffle(labels)
    return [(v, ports[v].pop(), w, ports[w].pop()) for v, w in pairs]


def in_file(path: str) -> Network:
    """The network of a file, which must be right: ask `arena check`."""
    try:
        document = tomllib.loads(pathlib.Path(path).read_text(encoding="utf-8"))
        return Network(document["nodes"], list(map(link_of, document["links"])))
    except (ValueError, KeyError, TypeError) as fault:
        raise NetworkFileError(
            f"{path}: it is no network file ({fault_text(fault)}); `arena check` says more"
        ) from None


def in_graphml(path: str) -> Network:
    """The network of a graph in GraphML."""
    networkx = require("networkx")
    with open(path, "rb") as file:
        raw = file.read(MAX_GRAPHML + 1)
    try:
        check_xml(raw)
        with warnings.catch_warnings():
            # of data and ports that a file has beside its graph
            warnings.simplefilter("ignore")
            graph = networkx.read_graphml(io.BytesIO(raw))
    except (
        ValueError,
        LookupError,
        SyntaxError,
        expat.ExpatError,
        networkx.NetworkXException,
    ) as fault:
        raise NetworkFileError(
            f"{path}: it is no GraphML ({str(fault)[:MAX_SHOWN]})"
        ) from None
    graph.name = path
    return of_graph(graph)


def check_xml(raw: bytes) -> None:
    """Refuses a file that takes long to read, or of which a few lines would become
    many: its entities stand for texts, which have entities again."""
    if len(raw) > MAX_GRAPHML:
        raise ValueError(f"it has more than {MAX_GRAPHML >> 20} MB")
    nodes = 0

    def refuse_entity(*_: Any) -> None:
        raise ValueError("it declares entities: write what they stand for")

    def begin_element(name: str, _: Any) -> None:
        nonlocal nodes
        nodes += name.rpartition(":")[2] == "node"
        if nodes > MAX_NODES:
            raise ValueError(f"it has more than {MAX_NODES} nodes")

    parser = expat.ParserCreate()
    parser.EntityDeclHandler = refuse_entity
    parser.StartElementHandler = begin_element
    parser.Parse(raw, True)


def fault_text(fault: Exception) -> str:
    """Returns the error in a TOML file, from the exception of its parser."""
    return f"it has no key {fault}" if isinstance(fault, KeyError) else str(fault)


def of_graph(graph: Any) -> Network:
    """The network of a networkx graph. Nodes are numbered in the graph's order, and the
    ports of each node in the order of its neighbours."""
    if (
        graph.is_directed()
        or graph.is_multigraph()
        or any(v == w for v, w in graph.edges)
    ):
        raise NetworkError(
            "a network is a graph without directions, in which a link joins two nodes and no other does"
        )
    if not 3 <= graph.number_of_nodes() <= MAX_NODES:
        raise NetworkError(
            f"a network has 3 to {MAX_NODES} nodes, and this graph has {graph.number_of_nodes()}"
        )
    number = {node: index for index, node in enumerate(graph.nodes)}
    ports = {
        node: {neighbour: port for port, neighbour in enumerate(graph.adj[node])}
        for node in graph.nodes
    }
    network = Network(
        len(number),
        [(number[v], ports[v][w], number[w], ports[w][v]) for v, w in graph.edges],
    )
    return check_network(network, str(getattr(graph, "name", "")) or "the graph")


def network_named(name: str) -> Network:
    """The network that a word of the command line names."""
    kind, colon, size = name.partition(":")
    if not colon:
        if not pathlib.Path(name).is_file():
            raise NetworkError(
                f"{name}: there is no such file; a network is {NAMES} or a file"
            )
        return in_graphml(name) if name.endswith(GRAPHML) else in_file(name)
    try:
        sizes = sizes_of(kind, size)
        made_network = MAKERS[kind]
        if not SMALLEST.get(kind, 0) <= min(sizes) or sizes[0] > LARGEST_SIZE.get(
            kind, sizes[0]
        ):
            raise NetworkError(
                f"{name}: a network has 3 to {MAX_NODES} nodes, a torus 3 rows and columns or more, a "
                "grid 2, a ring around a hub 3 nodes, and cube-connected cycles 3 dimensions or more"
            )
        network: Network = made_network(*sizes)
    except (KeyError, TypeError, ValueError):
        raise NetworkError(
            f"{name}: a network is {NAMES} or a file; N times K is even, and K less than N"
        ) from None
    if not 3 <= network.nodes <= MAX_NODES:
        raise NetworkError(
            f"{name}: a network has 3 to {MAX_NODES} nodes, and this one has {network.nodes}"
        )
    return network


def in_range(name: str) -> List[str]:
    """The names that a word names: `ring:3..8` is those of all sizes from 3 to 8."""
    match = re.fullmatch(r"(\w+):(\d+)\.\.(\d+)", name)
    if not match:
        return [name]
    first = int(match[2])
    last = int(match[3])
    if first > last:
        raise NetworkError(
            f"{name}: the first size is the smaller one, as in {match[1]}:{last}..{first}"
        )
    return [f"{match[1]}:{size}" for size in range(first, last + 1)]


MAKERS: Dict[str, Callable[..., Network]] = {
    "ring": ring,
    "hypercube": hypercube,
    "complete": complete,
    "torus": torus,
    "grid": grid,
    "wheel": wheel,
    "petersen": petersen,
    "ccc": cube_connected_cycles,
    "random": lambda *sizes: regular(*sizes)
    if len(sizes) == 3
    else draw_network(random.Random(*sizes)),
}
SMALLEST = {"torus": 3, "ccc": 3, "grid": 2, "wheel": 3}
LARGEST_SIZE = {
    "hypercube": 12,
    "ccc": 9,
    "ring": MAX_NODES,
    "complete": SMALL_NODES,
    "torus": MAX_NODES,
    "grid": MAX_NODES,
    "wheel": MAX_NODES,
    "petersen": MAX_NODES,
}


def sizes_of(kind: str, size: str) -> List[int]:
    """The numbers behind the kind of a network."""
    match = re.fullmatch(r"(\d+):deg(\d+):seed(\d+)", size)
    if match and kind == "random":
        return [int(number) for number in match.groups()]
    return [int(word) for word in size.split("x")]


def check_biconnected(name: str) -> Network:
    """The network that a word names, or else a line that says where it can be cut."""
    return check_network(network_named(name), name)


def check_network(network: Network, name: str) -> Network:
    """Returns the network. Raises NetworkError if it breaks a rule or is not
    biconnected."""
    ends = [end for v, p, w, q in network.links for end in ((v, p), (w, q))]
    pairs = [frozenset((v, w)) for v, _, w, _ in network.links]
    if not 3 <= network.nodes <= MAX_NODES:
        raise NetworkError(
            f"{name}: a network has 3 to {MAX_NODES} nodes, and not {network.nodes}"
        )
    if sorted(ends) != [
        (v, p) for v, degree in enumerate(network.degrees()) for p in range(degree)
    ]:
        raise NetworkError(
            f"{name}: a node with D links has the ports 0 to D - 1, each once"
        )
    if len(set(pairs)) < len(pairs) or any(len(pair) < 2 for pair in pairs):
        raise NetworkError(
            f"{name}: a link joins two nodes, and no other link joins them"
        )
    cut = cut_of(network)
    if cut:
        advice = "take another seed" if name.startswith("random") else "add a link"
        raise NetworkError(f"{name}: the network is not biconnected: {cut}; {advice}")
    return network


def text_of(network: Network) -> str:
    """The network's file."""
    version = 1 if network.nodes <= SMALL_NODES else 2
    return f"version = {version}\nnodes = {network.nodes}\nlinks = {[list(link) for link in network.links]}\n"
