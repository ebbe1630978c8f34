"""Compares what the program says of lists of links with what the rules say, worked out
here in a plain way.

    python3 -m tests.program.network_faults PROGRAM [OTHER] [--lists N]

Makes N lists of links by a seeded generator, 10,000 by default. Half of them make a
network. Of the others most are broken in one to three places, and some join two
networks at a node or not at all. Runs `PROGRAM check` on each, and OTHER, another
build, if it is named, and compares the fault line and the status. The tournament is of
version 1, so that older builds take it too. Prints how many lists had each fault, and a
line for each difference. The last line reads `N passed, M failed`, and the exit status
is 1 if a list made a difference.
"""
import argparse
import collections
import concurrent.futures
import pathlib
import random
import subprocess
import sys
import tempfile
from typing import Callable, Dict, List, Optional, Sequence, Set, Tuple

from arena_lab.rules.limits import SMALL_NODES
from bench.inputs import tournament
from tests.support.counts import report_counts
from tests.support.servers import without_notes

TOP = pathlib.Path(__file__).resolve().parents[2]
LISTS = 10_000
WORKERS = 4
MIN_NODES = 3
REFUSED = 3

Link = List[int]
LinkList = Tuple[int, List[Link]]


# What the rules say.


def is_joined(nodes: int, links: Sequence[Link], without: Optional[int] = None) -> bool:
    """Returns whether paths that keep off a node join all the others."""
    neighbours: Dict[int, Set[int]] = {
        node: set() for node in range(nodes) if node != without
    }
    for link, _, two, _ in links:
        if without not in (link, two):
            neighbours[link].add(two)
            neighbours[two].add(link)
    start = next(iter(neighbours))
    visits = {start}
    todo = [start]
    while todo:
        for second in neighbours[todo.pop()] - visits:
            visits.add(second)
            todo.append(second)
    return len(visits) == len(neighbours)


def first_again(
    links: Sequence[Link], parts: Callable[[Link], List[object]]
) -> Optional[int]:
    """The first link of which a part stands in an earlier one."""
    observations: Set[object] = set()
    for index, link in enumerate(links):
        if observations.intersection(parts(link)):
            return index
        observations.update(parts(link))
    return None


def gap(nodes: int, links: Sequence[Link]) -> Optional[int]:
    """Returns the first node that lists a port but not all lower ones."""
    ports: List[Set[int]] = [set() for _ in range(nodes)]
    for link, p, two, q in links:
        ports[link].add(p)
        ports[two].add(q)
    return next(
        (node for node in range(nodes) if ports[node] != set(range(len(ports[node])))),
        None,
    )


def first(places: Sequence[bool]) -> Optional[int]:
    return next((index for index, holds in enumerate(places) if holds), None)


def fault_of(nodes: int, links: Sequence[Link]) -> str:
    """Returns the first fault of a list of links, or ""."""
    if not MIN_NODES <= nodes <= SMALL_NODES:
        return "nodes"
    for name, position in (
        (
            "node in link",
            lambda: first([max(link[0], link[2]) >= nodes for link in links]),
        ),
        ("loop in link", lambda: first([link[0] == link[2] for link in links])),
        (
            "double link",
            lambda: first_again(links, lambda link: [frozenset((link[0], link[2]))]),
        ),
        (
            "port twice in link",
            lambda: first_again(links, lambda link: [tuple(link[:2]), tuple(link[2:])]),
        ),
        ("port gap at node", lambda: gap(nodes, links)),
    ):
        result = position()
        if result is not None:
            return f"{name} {result}"
    if not is_joined(nodes, links):
        return "apart"
    cut = next(
        (node for node in range(nodes) if not is_joined(nodes, links, node)), None
    )
    return "none" if cut is None else f"cut node {cut}"


# Lists of links.


def whole(rng: random.Random) -> LinkList:
    """A network of a ring and further links, in any order and direction, with any
    numbers of nodes and ports."""
    nodes = rng.choice((3, 4, 5, 6, 8, 12, 20))
    pairs = {frozenset((node, (node + 1) % nodes)) for node in range(nodes)}
    for _ in range(rng.choice((0, 1, nodes, nodes * nodes))):
        pairs.add(frozenset(rng.sample(range(nodes), 2)))
    names = rng.sample(range(nodes), nodes)
    ends = [
        rng.sample([names[node] for node in pair], 2)
        for pair in sorted(pairs, key=sorted)
    ]
    rng.shuffle(ends)
    ports = [rng.sample(range(nodes), nodes) for _ in range(nodes)]
    for node in range(nodes):
        degree = sum(node in pair for pair in ends)
        ports[node] = rng.sample(range(degree), degree)
    return nodes, [[end, ports[end].pop(), two, ports[two].pop()] for end, two in ends]


def two_parts(rng: random.Random) -> LinkList:
    """Two networks that stand apart, or that share a node."""
    (size, links) = whole(rng)
    (second, extra) = whole(rng)
    if rng.random() < 0.5:
        return size + second, links + [
            [first + size, p, two + size, q] for first, p, two, q in extra
        ]
    shared_value = sum(size - 1 in (link, two) for link, _, two, _ in links)
    moved_value = [
        [
            first + size - 1,
            p + (shared_value if first == 0 else 0),
            two + size - 1,
            q + (shared_value if two == 0 else 0),
        ]
        for first, p, two, q in extra
    ]
    return size + second - 1, links + moved_value


def break_once(rng: random.Random, made: LinkList) -> LinkList:
    """A list that differs in one place, which need not be a fault."""
    nodes, links = made
    links = [list(link) for link in links]
    variant = rng.randrange(6)
    if variant == 0:
        return nodes + rng.choice((-nodes, -1, 1, 2, 300)), links
    index = rng.randrange(len(links))
    if variant == 1:
        links[index][rng.randrange(4)] += rng.choice((-1, 1, 2, nodes, 60_000))
    elif variant == 2:
        links[index][rng.choice((1, 3))] = rng.choice((0, 1, nodes, 65_535))
    elif variant == 3:
        links[index][rng.choice((0, 2))] = rng.randrange(max(nodes, 1))
    elif variant == 4:
        del links[index]
    else:
        links.insert(rng.randrange(len(links) + 1), list(links[index]))
    return nodes, [[min(max(number, 0), 65_535) for number in link] for link in links]


def draw_links(number: int) -> LinkList:
    rng = random.Random(number)
    if number % 2 == 0:
        return whole(rng)
    made = two_parts(rng) if rng.random() < 0.3 else whole(rng)
    for _ in range(rng.choice((0, 1, 1, 2, 3))):
        if made[1]:
            made = break_once(rng, made)
    return max(made[0], 0), made[1]


# What the programs say.


def run_check(program: str, folder: pathlib.Path) -> Tuple[int, str]:
    words = [program, "check", "t.toml"]
    result = subprocess.run(words, cwd=folder, capture_output=True)
    # a line of what helps begins with two spaces
    lines = without_notes(result.stderr, words).decode().splitlines(keepends=True)
    return result.returncode, "".join(
        line for line in lines if not line.startswith("  ")
    )


def compare(programs: Sequence[str], number: int) -> Tuple[str, List[str]]:
    """Returns the expected fault of a list, and how the programs differ from it."""
    nodes, links = draw_links(number)
    fault = fault_of(nodes, links)
    expectation = (0, "") if fault == "none" else (REFUSED, f"n.toml: {fault}\n")
    with tempfile.TemporaryDirectory() as name:
        folder = pathlib.Path(name)
        text = (
            f"version = 1\nnodes = {nodes}\nlinks = {[list(link) for link in links]}\n"
        )
        (folder / "n.toml").write_text(text)
        (folder / "t.toml").write_text(tournament("n.toml", 1, 1, 8, 1))
        results = [run_check(program, folder) for program in programs]
    return fault, [
        f"list {number}: {program} says {message} with status {status}, but should say {expectation}"
        for program, (status, message) in zip(programs, results)
        if (status, message) != expectation
    ]


def main() -> int:
    parser = argparse.ArgumentParser(
        description=__doc__, formatter_class=argparse.RawDescriptionHelpFormatter
    )
    parser.add_argument("program", metavar="PROGRAM")
    parser.add_argument("other", metavar="OTHER", nargs="?")
    parser.add_argument("--lists", metavar="N", type=int, default=LISTS)
    args = parser.parse_args()
    programs = [
        str(pathlib.Path(program).resolve())
        for program in (args.program, args.other)
        if program
    ]
    with concurrent.futures.ThreadPoolExecutor(WORKERS) as pool:
        results = list(
            pool.map(lambda number: compare(programs, number), range(args.lists))
        )
    counts = collections.Counter(fault.rstrip("0123456789 ") for fault, _ in results)
    print(", ".join(f"{name} {count}" for name, count in counts.most_common()))
    for line in [line for _, lines in results for line in lines]:
        print(line)
    differ = sum(bool(lines) for _, lines in results)
    return report_counts(len(results) - differ, differ)


if __name__ == "__main__":
    sys.exit(main())
