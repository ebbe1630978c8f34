"""What is drawn for a match: its black hole, its home base, the labels of its ports and
its keys. Each attempt has its own, by the operating system's source of secrets, so no
attempt tells anything of another. Labels are shuffled by Python's generator, from a
seed of 128 bits that is used for nothing else."""
import pathlib
import secrets
from typing import Any, Dict, NamedTuple, Optional

from arena_lab.hall.hall_files import DRAWN, Net
from arena_lab.hall.place import write_whole
from arena_lab.rules import draws, networks
from arena_lab.rules.delays import ODDS, SCALES, Delays
from arena_lab.rules.fixtures import Fixture, tournament_text

TOURNAMENT = "tournament.toml"
NETWORK = "network.toml"


class Draw(NamedTuple):
    """A drawn match, and the map for its team if the network is shown."""

    fixture: Fixture
    map: Optional[Dict[str, Any]]


def draw_match(net: Net, team: str) -> Draw:
    """Draws a match of a team."""
    draw_settings = draws.Open(
        holes=net.holes, ports=draws.DRAWN if net.labels == DRAWN else None
    )
    match = draws.draw_match(
        net.network, secrets.SystemRandom(), draw_settings, draws.SECRET_BITS
    )
    setup = match.setup(net.agents, net.quota, net.board)
    keys = [f"{team}-{secrets.token_urlsafe(12)}" for _ in range(net.agents)]
    links = [list(link) for link in setup.links]
    facts = {"nodes": setup.nodes, "links": links, "home": setup.home}
    return Draw(Fixture(team, setup, keys), facts if net.has_map else None)


def write(draw: Draw, folder: pathlib.Path) -> None:
    """Writes the tournament of a match, which has its black holes, into a folder that
    nobody else may look into."""
    folder.mkdir(mode=0o700, parents=True)
    setup = draw.fixture.setup
    write_whole(
        folder / NETWORK, networks.text_of(networks.Network(setup.nodes, setup.links))
    )
    text = tournament_text(
        secrets.token_hex(32), [(draw.fixture, NETWORK)], Delays(SCALES, ODDS)
    )
    write_whole(folder / TOURNAMENT, text)
