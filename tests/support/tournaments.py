"""Tournaments that tests write."""
import pathlib
from typing import Any, Dict, Optional, Sequence

from arena_lab.rules import networks
from arena_lab.rules.delays import Delays
from arena_lab.rules.fixtures import SEED, Fixture, tournament_text
from arena_lab.rules.model import Setup
from arena_lab.rules.networks import Network

# port 0 leads from the home base to node 1 and back
TRIANGLE = Network(3, [(0, 0, 1, 0), (1, 1, 2, 0), (2, 1, 0, 1)])


def match(
    team: str, network: Network, holes: Sequence[int], agents: int = 2, **extra: Any
) -> Fixture:
    """A match of a team whose agents have the keys TEAM-0, TEAM-1 and so on. `more` has
    values for fields of its fixture or its setup, in place of the usual ones."""
    fixture = Fixture(
        team,
        Setup(network.nodes, network.links, 0, list(holes), agents, 1000, 64),
        [f"{team}-{agent}" for agent in range(agents)],
    )
    own = {name: extra.pop(name) for name in Fixture._fields if name in extra}
    return fixture._replace(setup=fixture.setup._replace(**extra), **own)


def cup_files(
    fixtures: Sequence[Fixture],
    delays: Optional[Delays] = None,
    seed: str = SEED,
    name: str = "network",
) -> Dict[str, str]:
    """The tournament of these matches, cup.toml, and the files of their networks:
    NAME.toml, NAME1.toml and so on."""
    texts = [
        networks.text_of(Network(fixture.setup.nodes, fixture.setup.links))
        for fixture in fixtures
    ]
    names = {
        text: f"{name}{number or ''}.toml"
        for number, text in enumerate(dict.fromkeys(texts))
    }
    rows = [(fixture, names[text]) for fixture, text in zip(fixtures, texts)]
    return {
        "cup.toml": tournament_text(seed, rows, delays),
        **{file: text for text, file in names.items()},
    }


def write_cup(
    folder: pathlib.Path,
    fixtures: Sequence[Fixture],
    delays: Optional[Delays] = None,
    seed: str = SEED,
    name: str = "network",
) -> pathlib.Path:
    """Writes these files; gives the tournament's."""
    for file, text in cup_files(fixtures, delays, seed, name).items():
        (folder / file).write_text(text, encoding="utf-8")
    return folder / "cup.toml"
