"""A page of a network, to see before anything is played where each port leads."""
from typing import Any, Dict, List

from arena_lab.pages.match_page import SCALE, layout
from arena_lab.pages.parts import fill_page
from arena_lab.rules.networks import Network

# how far from its node the number of a port stands, and how large a node is drawn, in
# thousandths of the picture
NEAR = 48
RADIUS = 22


def page_of(network: Network, title: str) -> str:
    """The page: each node with its number, and the number of each port where it leaves
    its node."""
    spots = layout({"nodes": network.nodes, "links": network.links})
    degrees = network.degrees()
    about = (
        f"{network.nodes} nodes, {len(network.links)} links, {min(degrees)} to {max(degrees)} ports a node. "
        "Agents see no number of a node, and of ports only those of the node where they stand."
    )
    return fill_page(
        "network.html",
        title=title,
        about=about,
        nodes=spots,
        links=[drawn_link(spots, link) for link in network.links],
        radius=RADIUS,
        edge=2 * NEAR,
        size=SCALE + 4 * NEAR,
    )


def drawn_link(spots: List[List[int]], link: Any) -> Dict[str, Any]:
    """A link as it is drawn: its two ends, and the number of its port at each."""
    v, p, w, q = link
    start = spots[v]
    two = spots[w]
    return {
        "one": start,
        "two": two,
        "ports": [(p, *towards(start, two)), (q, *towards(two, start))],
    }


def towards(here: List[int], there: List[int]) -> List[int]:
    """Returns the position of a port's number on a link from one spot to another."""
    length = max(1.0, ((there[0] - here[0]) ** 2 + (there[1] - here[1]) ** 2) ** 0.5)
    part = min(NEAR / length, 0.4)
    return [round(here[axis] + part * (there[axis] - here[axis])) for axis in (0, 1)]
