"""Fixtures: the matches of a tournament, before they are played."""
import json
import pathlib
import tomllib
from typing import Any, Dict, Iterable, List, NamedTuple, Optional, Sequence, Set, Tuple

from arena_lab.rules import draws, networks
from arena_lab.rules.delays import OBLIVIOUS, Delays
from arena_lab.rules.limits import (
    MAX_AGENTS,
    MAX_BOARD,
    MAX_QUOTA,
    SMALL_BOARD,
    SMALL_QUOTA,
)
from arena_lab.rules.model import Object, Place, Setup, command_of, place_of, text_of

SEED_BYTES = 32
SEED = "0" * 2 * SEED_BYTES
# the keys of a tournament and of a match, by the file's version
FILE_KEYS: Dict[int, Set[str]] = {1: {"version", "seed", "match"}}
FILE_KEYS[2] = FILE_KEYS[1]
FILE_KEYS[3] = FILE_KEYS[2] | {"schedule", "delay_scales", "delay_odds"}
ALIKE = {"team", "network", "home", "quota", "board", "keys", "held"}
MATCH_KEYS = {
    1: ALIKE | {"hole"},
    2: ALIKE | {"holes", "dark"},
    3: ALIKE | {"holes", "dark"},
}
# the first version that refuses unknown keys
STRICT = 3
# name of a team without a name
OWN_TEAM = "lab"


class Fixture(NamedTuple):
    """A match to be played. `held` are the links over which nobody arrives, each as
    (node, port) of the departure. An agent may wake `naps` times more though nothing
    has changed in front of it."""

    team: str
    setup: Setup
    keys: List[str]
    held: List[Place] = []
    naps: int = 0


class MatchError(networks.NetworkError):
    """No match is set up so; says why."""


def twice(items: Sequence[Any]) -> List[Any]:
    """Returns the items that occur more than once."""
    return [item for index, item in enumerate(items) if item in items[:index]]


def check_setup(setup: Setup) -> Setup:
    """A setup, if the program takes it. Whether its links make a network is not asked
    here."""
    ports = {(v, p): (w, q) for v, p, w, q in setup.links} | {
        (w, q): (v, p) for v, p, w, q in setup.links
    }
    unknown = [link_end for link_end in setup.dark if link_end not in ports]
    ends = [min(link_end, ports.get(link_end, link_end)) for link_end in setup.dark]
    if not 1 <= setup.agents <= MAX_AGENTS:
        raise MatchError(
            f"a match has 1 to {MAX_AGENTS} agents, and not {setup.agents}"
        )
    if not 1 <= setup.quota <= MAX_QUOTA:
        raise MatchError(
            f"an agent has 1 to {MAX_QUOTA} commands, and not {setup.quota}: name another number by --quota"
        )
    if not 0 <= setup.board <= MAX_BOARD:
        raise MatchError(
            f"a whiteboard has 0 to {MAX_BOARD} bytes, and not {setup.board}: name another number by "
            "--board"
        )
    if any(
        not 0 <= node < setup.nodes for v, _, w, _ in setup.links for node in (v, w)
    ):
        raise MatchError(
            f"a link has an end that does not exist: nodes are 0 to {setup.nodes - 1}"
        )
    if not 0 <= setup.home < setup.nodes:
        raise MatchError(
            f"the home base {setup.home} does not exist: nodes are 0 to {setup.nodes - 1}"
        )
    if any(hole == setup.home or not 0 <= hole < setup.nodes for hole in setup.holes):
        raise MatchError(
            f"black holes are nodes from 0 to {setup.nodes - 1} other than the home base {setup.home}"
        )
    if twice(setup.holes):
        raise MatchError(f"node {twice(setup.holes)[0]} is named as a black hole twice")
    if unknown:
        raise MatchError(
            f"node {unknown[0][0]} has no port {unknown[0][1]}, so no dark link is there"
        )
    if twice(ends):
        raise MatchError("a dark link is named twice: name it by one of its ends")
    return setup


def fixture_of(setup: Setup, number: object = None) -> Fixture:
    """Returns a fixture with keys derived from `number`, or with simple keys."""
    keys = [f"k{agent}" for agent in range(setup.agents)]
    return Fixture(
        OWN_TEAM,
        check_setup(setup),
        keys if number is None else draws.keys_of(number, setup.agents),
    )


def enters_as_another(fixture: Fixture, number: int, line: bytes) -> bool:
    """Returns whether an agent's line enters with the key of another agent."""
    key = command_of(text_of(line)).get("key")
    return key in fixture.keys and key != fixture.keys[number]


class Tournament(NamedTuple):
    """A tournament's file: its seed, its fixtures, and its delays if its schedule is
    the oblivious one."""

    seed: str
    fixtures: List[Fixture]
    delays: Optional[Delays] = None


def read_tournament(path: str) -> Tournament:
    """The tournament of a file, which must be right: ask `arena check`."""
    try:
        document = tomllib.loads(pathlib.Path(path).read_text(encoding="utf-8"))
        if document["version"] >= STRICT:
            for row, allowed in [
                (document, FILE_KEYS),
                *((row, MATCH_KEYS) for row in document["match"]),
            ]:
                only_known(row, allowed[document["version"]])
        fixtures = [
            fixture_in(row, pathlib.Path(path).parent) for row in document["match"]
        ]
        is_oblivious = document.get("schedule") == OBLIVIOUS
        return Tournament(
            seed_in(document),
            fixtures,
            Delays(document["delay_scales"], document["delay_odds"])
            if is_oblivious
            else None,
        )
    except (ValueError, KeyError, TypeError) as fault:
        raise MatchError(
            f"{path}: it is no tournament ({networks.fault_text(fault)}); `arena check` says more"
        ) from None


def only_known(row: Object, allowed: Set[str]) -> None:
    """Refuses a table that has another key than these."""
    for key in sorted(set(row) - allowed):
        raise ValueError(
            f"unknown key {key}: the keys here are {', '.join(sorted(allowed))}"
        )


def seed_in(document: Object) -> str:
    """The seed of a tournament."""
    seed: str = document["seed"]
    if len(bytes.fromhex(seed)) != SEED_BYTES:
        raise ValueError(f"its seed has not {2 * SEED_BYTES} hexadecimal digits")
    return seed


def fixture_in(row: Dict[str, Any], folder: pathlib.Path) -> Fixture:
    """The fixture of a match's table, in a tournament whose file is in this folder."""
    network = networks.in_file(network_path(row["network"], folder))
    holes = (
        row["holes"]
        if "holes" in row or "hole" not in row
        else [row["hole"]]
        if row["hole"] != "none"
        else []
    )
    dark = list(map(place_of, row.get("dark", [])))
    setup = Setup(
        network.nodes,
        network.links,
        row["home"],
        holes,
        len(row["keys"]),
        row["quota"],
        row["board"],
        dark,
    )
    return Fixture(
        row["team"],
        check_setup(setup),
        row["keys"],
        list(map(place_of, row.get("held", []))),
    )


def network_path(name: str, folder: pathlib.Path) -> str:
    """The file of a network: from the working directory or, if nothing is there, from
    the tournament's folder."""
    near = folder / name
    return str(near) if near.exists() and not pathlib.Path(name).exists() else name


def match_text(fixture: Fixture, network: str) -> str:
    """The table of a match, whose network stands in this file."""
    setup = fixture.setup
    rows: Object = {
        "team": fixture.team,
        "network": network,
        "home": setup.home,
        "holes": setup.holes,
        "dark": pairs(setup.dark),
        "quota": setup.quota,
        "board": setup.board,
        "keys": fixture.keys,
        "held": pairs(fixture.held),
    }
    return "\n[[match]]\n" + "".join(
        f"{key} = {toml_of(value)}\n" for key, value in rows.items()
    )


def toml_of(value: Any) -> str:
    """A text, a number or a list of these in TOML. It is what JSON spells, but for
    escapes of half a character, and for a control character that TOML has escaped."""
    return json.dumps(value, ensure_ascii=False).replace("\x7f", "\\u007f")


def tournament_text(
    seed: str, matches: Iterable[Tuple[Fixture, str]], delays: Optional[Delays] = None
) -> str:
    """Returns the TOML text of a tournament: seed, optional delays of the oblivious
    schedule, and matches with network files."""
    rows = list(matches)
    is_old = (
        all(
            fixture.setup.quota <= SMALL_QUOTA and fixture.setup.board <= SMALL_BOARD
            for fixture, _ in rows
        )
        and not delays
    )
    head = f'version = {2 if is_old else 3}\nseed = "{seed}"\n'
    if delays:
        head += f'schedule = "{OBLIVIOUS}"\ndelay_scales = {delays.scales}\ndelay_odds = {delays.odds}\n'
    return head + "".join(match_text(*match) for match in rows)


def write_tournament(fixture: Fixture, folder: pathlib.Path) -> pathlib.Path:
    """Writes tournament.toml with this one match, and network.toml. The program must be
    run in that folder."""
    network = networks.Network(fixture.setup.nodes, fixture.setup.links)
    (folder / "network.toml").write_text(networks.text_of(network), encoding="utf-8")
    path = folder / "tournament.toml"
    path.write_text(
        tournament_text(SEED, [(fixture, "network.toml")]), encoding="utf-8"
    )
    return path


def pairs(places: Sequence[Place]) -> List[List[int]]:
    return [list(link_end) for link_end in places]
