"""What is drawn of a match: its home base, its black holes, the numbers of its ports,
and the nodes at which nobody arrives.

Whatever draws a match draws it here: the grader, the hall, contests, and the commands
that try an agent before. So what a student's `check` plays is drawn as what counts. A
match of a course is drawn from the course's secret, a match of a hall or a contest from
the operating system's source of secrets, and a student's match from its number.
"""
import hashlib
import random
import re
from typing import Iterable, List, NamedTuple, Optional, Sequence, Union

from arena_lab.rules.model import Place, Setup
from arena_lab.rules.networks import Network, NetworkError, places_into

# values of --ports and --home: drawn for each match, or as in the network
DRAWN = "drawn"
GIVEN = "given"
# the bits of a seed by which ports are numbered, where a secret draws it
SECRET_BITS = 128
PORTS_ARE = (
    f'"{GIVEN}", "{DRAWN}", or "shuffled:SEED" with a whole number, such as shuffled:3'
)
# `DRAWN`, or the seed of one numbering for all matches, or None for the network's own
# numbering
Ports = Union[None, int, str]


class Open(NamedTuple):
    """The settings left to draws: home base, number of black holes, ports, and the
    number of nodes at which nobody arrives although nothing destroys there."""

    home: Optional[int] = None
    holes: int = 1
    ports: Ports = DRAWN
    closed_pairs: int = 0


class DrawnMatch(NamedTuple):
    """A drawn match: network with ports, home base and black holes. `held` are link
    ends over which nobody arrives; `ports` is the seed of the numbering, or None."""

    network: Network
    home: int
    holes: List[int]
    ports: Optional[int] = None
    held: List[Place] = []

    def setup(
        self, agents: int, quota: int, board: int, dark: Sequence[Place] = ()
    ) -> Setup:
        nodes, links = self.network
        return Setup(
            nodes, links, self.home, self.holes, agents, quota, board, list(dark)
        )


def draw_match(
    network: Network, rng: random.Random, draw_settings: Open = Open(), bits: int = 64
) -> DrawnMatch:
    """Draws a match on a network."""
    home = (
        rng.choice(range(network.nodes))
        if draw_settings.home is None
        else draw_settings.home
    )
    nodes = sample_nodes(
        network, home, draw_settings.holes + draw_settings.closed_pairs, rng
    )
    seed = ports_seed(draw_settings.ports, rng, bits)
    numbered = renumber(network, seed)
    held_links = places_into(numbered.links, nodes[draw_settings.holes :])
    return DrawnMatch(
        numbered, home, sorted(nodes[: draw_settings.holes]), seed, held_links
    )


def ports_seed(
    ports: Ports, rng: random.Random, bits: int = SECRET_BITS
) -> Optional[int]:
    """The seed by which ports are numbered, if they are not the network's own."""
    return rng.getrandbits(bits) if isinstance(ports, str) else ports


def of_number(
    network: Network, number: int, draw_settings: Open = Open()
) -> DrawnMatch:
    """The match of a number. Numbers take the nodes as black holes one after the other,
    and as home bases too; each has ports of its own."""
    home = number % network.nodes if draw_settings.home is None else draw_settings.home
    if not 0 <= home < network.nodes:
        raise NetworkError(f"it has no node {home} for a home base")
    other_nodes = others_than(home, network)
    seed = number if isinstance(draw_settings.ports, str) else draw_settings.ports
    numbered_network = renumber(network, seed)
    return DrawnMatch(
        numbered_network, home, [other_nodes[number % len(other_nodes)]], seed
    )


def others_than(home: int, network: Network) -> List[int]:
    """The nodes that may be the black hole."""
    return [node for node in range(network.nodes) if node != home]


def sample_nodes(
    network: Network, home: int, count: int, rng: random.Random
) -> List[int]:
    """This many nodes, each of which may be the black hole, in an order that is
    drawn."""
    other_nodes = others_than(home, network)
    if count > len(other_nodes):
        raise NetworkError(f"only {len(other_nodes)} nodes can be the black hole")
    return rng.sample(other_nodes, count)


def renumber(network: Network, seed: Optional[int]) -> Network:
    """The network with the ports of each node numbered anew by a seed, if there is
    one."""
    if seed is None:
        return network
    rng = random.Random(seed)
    labels = [list(range(degree)) for degree in network.degrees()]
    for row in labels:
        rng.shuffle(row)
    return Network(
        network.nodes,
        [(v, labels[v][p], w, labels[w][q]) for v, p, w, q in network.links],
    )


def numberings(network: Network, limit: int, among: Iterable[int]) -> List[int]:
    """Seeds of numberings that differ, of which a ring of four has 16."""
    seeds_by_links = {repr(renumber(network, seed).links): seed for seed in among}
    return sorted(seeds_by_links.values())[:limit]


def ports_of(word: str) -> Ports:
    """The numbers of ports that a word names."""
    match = re.fullmatch(r"shuffled:(\d+)", word)
    if not match and word not in (DRAWN, GIVEN):
        raise NetworkError(f"{word}: ports are {PORTS_ARE}")
    return int(match[1]) if match else DRAWN if word == DRAWN else None


def ports_text(ports: Optional[int]) -> str:
    """How ports are numbered, behind the name of a network."""
    return "" if ports is None else f" with ports shuffled:{ports}"


def keys_of(number: object, agents: int) -> List[str]:
    """Returns the public keys of a match by its number; programs derive their seeds
    from them."""
    return [
        f"k{agent}-{hashlib.sha256(f'{number} {agent}'.encode()).hexdigest()[:8]}"
        for agent in range(agents)
    ]


def seed_of(key: str) -> int:
    """The number from which a program may draw its chance. It comes from the agent's
    key, so it is the same when a match is played again. It fits in an int of C, and
    Python takes it as the seed of its hashes."""
    return int(hashlib.sha256(key.encode(errors="replace")).hexdigest()[:7], 16)
