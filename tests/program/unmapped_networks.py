"""Explores the search without a map, examples/agents/wasm/chart.wasm, on small networks,
from each home base and with each black hole.

    python3 -m tests.program.unmapped_networks PROGRAM [NODES ..]

NODES are the sizes of the networks, 3, 4 and 5 unless they are given. All networks of 3
and 4 nodes are explored. Larger ones have many states: those are left out in which a
node has more than three links, and of the others each third match is explored. A seed
numbers the ports.

There is one agent more than the black hole has links, and the whiteboards are the least.
The agents know the numbers of nodes and links; where no node has more than three links,
they play once more, and know the number of nodes alone. Every schedule must solve the
match, with no more lost agents than the black hole has links, and with no more moves
than 2 (n - 1) S + A (n - 2), for n nodes, S ports of nodes but the black hole, and A
agents. With one agent less some match of each size up to 4 must fail.

The last line reads `N passed, M failed`, and the exit status is 1 if one failed.
"""
import itertools
import json
import pathlib
import random
import subprocess
import sys
import tempfile
from typing import Any, Dict, Iterator, List, NamedTuple

from arena_lab.rules.networks import Network
from tests.support.counts import report_counts
from tests.support.matches import TOP
from tests.support.tournaments import match, write_cup

CHART = TOP / "examples" / "agents" / "wasm" / "chart.wasm"
QUOTA = 65_535
# the most states of a match
STATES = 10_000_000
# no node of a cubic network has more links
CUBIC = 3
# of networks with more nodes the cubic ones are explored, one match after each of this
# many, and never with an agent less
SMALL = 4
STRIDE = 3


class Search(NamedTuple):
    """A match: its network, home base and black hole, and how many links the agents are
    told, 0 if they know the number of nodes alone."""

    network: Network
    home: int
    hole: int
    links: int

    @property
    def degree(self) -> int:
        """Returns how many links the black hole has."""
        return self.network.degrees()[self.hole]

    @property
    def ends(self) -> int:
        """Returns how many ports the other nodes have."""
        return 2 * len(self.network.links) - self.degree

    @property
    def board(self) -> int:
        """The bytes of a whole chart: six for each row, and one for each port."""
        return 6 * (self.network.nodes - 1) + self.ends

    def most_moves(self, agents: int) -> int:
        nodes = self.network.nodes
        return 2 * (nodes - 1) * self.ends + agents * (nodes - 2)


def networks_of(nodes: int) -> Iterator[Network]:
    """Each network of this size that no node cuts, once."""
    import networkx

    draw = random.Random(nodes)
    for graph in networkx.graph_atlas_g():
        if len(graph) == nodes and networkx.is_biconnected(graph):
            ports = {it: draw.sample(list(graph[it]), len(graph[it])) for it in graph}
            links = [
                (first, ports[first].index(two), two, ports[two].index(first))
                for first, two in graph.edges
            ]
            yield Network(nodes, links)


def searches_of(network: Network) -> Iterator[Search]:
    """The matches on a network."""
    links = len(network.links)
    message = [links, 0] if max(network.degrees()) <= CUBIC else [links]
    for home, hole in itertools.permutations(range(network.nodes), 2):
        for facts in message:
            yield Search(network, home, hole, facts)


def explore(program: str, search: Search, agents: int, board: int) -> Dict[str, Any]:
    """What `explore` finds of this many agents, with whiteboards of this size; nothing
    if there are too many states."""
    words = ["--spurious-wakeups", "0", "--max-states", str(STATES)]
    words += ["--module", f"{CHART}:{search.network.nodes},{search.links}"]
    limits = {"home": search.home, "quota": QUOTA, "board": board}
    conditions = match("red", search.network, [search.hole], agents, **limits)
    with tempfile.TemporaryDirectory(prefix="unmapped-") as folder:
        write_cup(pathlib.Path(folder), [conditions])
        result = subprocess.run(
            [program, "explore", "cup.toml", "0", *words],
            cwd=folder,
            capture_output=True,
            text=True,
        )
    report: Dict[str, Any] = (
        json.loads(result.stdout.splitlines()[0]) if result.stdout else {}
    )
    return report


def fault_in(search: Search, values: Dict[str, Any]) -> str:
    """What is wrong with what was found of agents enough: not every schedule solves the
    match, or not within the bounds."""
    if values.get("found") != "solves":
        return str(values or "too many states")
    limit = search.most_moves(search.degree + 1)
    is_within = values["lost"] <= search.degree and values["moves"] <= limit
    return "" if is_within else f"{values}, and the most moves are to be {limit}"


def match_searches(nodes: int) -> List[Search]:
    """The matches on networks of this size that are explored."""
    if nodes <= SMALL:
        return [
            search for network in networks_of(nodes) for search in searches_of(network)
        ]
    cubic = [
        network for network in networks_of(nodes) if max(network.degrees()) <= CUBIC
    ]
    return [search for network in cubic for search in searches_of(network)][::STRIDE]


def is_solved(program: str, search: Search) -> bool:
    """Returns whether agents enough solve a match as they should; a line says so if
    not."""
    result = explore(program, search, search.degree + 1, search.board)
    fault = fault_in(search, result)
    if fault:
        print(f"FAILED {search}: {fault}", flush=True)
    return not fault


def fails(program: str, search: Search) -> bool:
    """Returns whether one agent less fails under some schedule."""
    result = explore(program, search, search.degree, search.board)
    return bool(result.get("found") == "fails")


def main() -> int:
    if len(sys.argv) < 2 or sys.argv[1] in ("-h", "--help"):
        sys.exit((__doc__ or "").strip())
    program = str(pathlib.Path(sys.argv[1]).resolve())
    solved_count = []
    for nodes in map(int, sys.argv[2:] or ("3", "4", "5")):
        searches = match_searches(nodes)
        solved_count += [is_solved(program, search) for search in searches]
        if nodes <= SMALL:
            failing = sum(fails(program, search) for search in searches)
            print(
                f"{failing} of {len(searches)} fail with an agent less: {nodes} nodes"
            )
            solved_count.append(failing > 0)
    return report_counts(sum(solved_count), len(solved_count) - sum(solved_count))


if __name__ == "__main__":
    sys.exit(main())
