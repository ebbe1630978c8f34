"""Writes a tournament: each team on each network with each black hole.

    ./arena-lab tournament --team red --team blue --network ring:8 --network torus:5x5 --holes 2 --out contest
    ./arena-lab tournament --again contest/tournament.toml 3 --out again3

The folder gets the file of the tournament, a file for each network, and a sheet of keys
for each team. Keys and the tournament's seed are drawn by the operating system's source
of secrets. So are black holes, unless you name them by --hole or ask for all of them,
and the numbers of ports of each network, unless you say --ports given.
On one network with one black hole all teams play the same match. The tournament has the
oblivious schedule, under which no agent learns by waiting what others do;
examples/README.md says how to choose its delays and how many turns a match takes.

With --traps N each team gets N matches more, on networks that are drawn, without a
black hole: two nodes are drawn instead, and the links into them let nobody arrive. No
agent can tell such a match from one in which either is the black hole and the links
into the other are slow. So a team that decides nothing by time is `silent` there; one
that takes a long silence for a black hole is `wrong`, and the standings of `./arena-lab
page` and `./arena-lab watch` say how often it was deceived. All matches stand in an
order that is drawn. A trap goes on until its last turn, as its agents wait.

Give each team its own sheet and no other file of the folder. A file of a network has no
black hole: a team may have it if its agents are to know the map. Run `arena check
tournament.toml` and `arena serve tournament.toml` in the folder.

--again TOURNAMENT M writes another try of match M alone, for a team whose program
crashed once it had entered: a key is used once. It has the team, the network, the home
base and the limits of match M, and everything else anew: keys, the labels of ports, the
tournament's seed, and what destroys or lets nobody arrive. It is served beside the
contest, on another port, and the first match stays as it is. Give the team its new
sheet, and the network's file if it had that. `./arena-lab page tournament.toml PREFIX
--again again3 --out pages` counts the better of the two tries, or the last one with
--take last.
"""
import argparse
import pathlib
import re
import secrets
from typing import Callable, Dict, List, NamedTuple, Optional, Sequence, Tuple, Union

from arena_lab.commands.network import network_for
from arena_lab.command_line.arguments import add_ports, not_negative
from arena_lab.pages.contest_pages import PLAN_FILE, TOURNAMENT
from arena_lab.rules import draws, networks
from arena_lab.rules.delays import ADAPTIVE, OBLIVIOUS, ODDS, SCALES, Delays
from arena_lab.rules.fixtures import (
    Fixture,
    check_setup,
    read_tournament,
    tournament_text,
)
from arena_lab.rules.limits import MAX_AGENTS, SMALL_BOARD, SMALL_QUOTA
from arena_lab.rules.model import Setup
from arena_lab.rules.networks import Network, NetworkError

ALL = "all"
DEGREE = "degree"
MAX_MATCHES = 64
MAX_SCALES = 24
MAX_ODDS = 65_535
NETWORK = "network0.toml"
QUOTA = SMALL_QUOTA
BOARD = SMALL_BOARD
CHANCE = secrets.SystemRandom()


class TournamentMatch(NamedTuple):
    """A match of the tournament, and the file of its network."""

    fixture: Fixture
    file: str


def holes_of(args: argparse.Namespace, name: str, network: Network) -> List[int]:
    """The black holes to be tried on a network, in the order of their numbers."""
    other_nodes = draws.others_than(args.home, network)
    if args.hole:
        if not set(args.hole) <= set(other_nodes):
            raise NetworkError(
                f"{name}: a black hole is a node other than the home base"
            )
        return sorted(set(args.hole))
    if args.holes == ALL:
        return other_nodes
    try:
        return sorted(draws.sample_nodes(network, args.home, args.holes, CHANCE))
    except NetworkError as fault:
        raise NetworkError(f"{name}: {fault}; ask for fewer by --holes") from None


def check_words(args: argparse.Namespace) -> None:
    """Refuses teams of one name, and delays that no tournament may have."""
    if len(set(args.team)) < len(args.team):
        raise NetworkError(
            "two teams have the same name: name each by a --team of its own"
        )
    if not 0 <= args.delay_scales <= MAX_SCALES:
        raise NetworkError(
            f"delays have 0 to {MAX_SCALES} scales, and not {args.delay_scales}: name another number by "
            "--delay-scales"
        )
    least = max(1, args.delay_scales)
    if not least <= args.delay_odds <= MAX_ODDS:
        raise NetworkError(
            f"with {args.delay_scales} scales --delay-odds is from {least} to {MAX_ODDS}, and not "
            f"{args.delay_odds}"
        )


def entries_of(args: argparse.Namespace) -> List[TournamentMatch]:
    """The matches, network by network, hole by hole and team by team; with traps among
    them, in an order that is drawn."""
    networks = [network_for(name, args) for name in args.network]
    places = [
        planned_match
        for number, network in enumerate(networks)
        for planned_match in places_on(args, number, network)
    ]
    if args.traps:
        places += [
            trap_on(args, *CHANCE.choice(list(enumerate(networks))))
            for _ in range(args.traps)
        ]
        CHANCE.shuffle(places)
    entries = [
        TournamentMatch(
            Fixture(
                team,
                planned_match.setup,
                [key_of(team) for _ in range(planned_match.setup.agents)],
                planned_match.held_links,
            ),
            planned_match.file,
        )
        for planned_match in places
        for team in args.team
    ]
    if len(entries) > MAX_MATCHES:
        raise NetworkError(
            f"a tournament has at most {MAX_MATCHES} matches, and this would have {len(entries)}: name "
            "fewer teams, networks, black holes or traps"
        )
    return entries


class PlannedMatch(NamedTuple):
    """A match that all teams are to play: its setup, the links over which nobody
    arrives, and its network's file."""

    setup: Setup
    held_links: List[Tuple[int, int]]
    file: str


def trap_on(args: argparse.Namespace, number: int, network: Network) -> PlannedMatch:
    """A match without a black hole. Nobody arrives at two nodes that are drawn: if it
    were one, it would be the last that is left to a team which has visited all others,
    and every team would accuse it."""
    draw_settings = draws.Open(args.home, 0, None, closed_pairs=2)
    held_links = draws.draw_match(network, CHANCE, draw_settings).held
    planned_match = places_on(args, number, network)[0]
    return planned_match._replace(
        setup=planned_match.setup._replace(holes=[]), held_links=held_links
    )


def file_of(names: Sequence[str], number: int) -> str:
    """The file of a network, which is called by its name, as pages and tables call
    it."""
    file_names = [
        re.sub(r"\W+", "-", pathlib.PurePath(name).name.removesuffix(".toml")).strip(
            "-"
        )
        for name in names
    ]
    are_names = (
        len({*file_names, "", pathlib.PurePath(TOURNAMENT).stem}) == len(file_names) + 2
    )
    return (
        f"{file_names[number]}.toml"
        if are_names
        else f"{file_names[number] or 'network'}-{number}.toml"
    )


def places_on(
    args: argparse.Namespace, number: int, network: Network
) -> List[PlannedMatch]:
    """The matches on a network, hole by hole."""
    name = args.network[number]
    if not 0 <= args.home < network.nodes:
        raise NetworkError(
            f"{name}: it has no node {args.home} for a home base; name another by --home"
        )
    agents = max(network.degrees()) + 1 if args.agents == DEGREE else args.agents
    if not 1 <= agents <= MAX_AGENTS:
        raise NetworkError(
            f"{name}: a match has 1 to {MAX_AGENTS} agents, and not {agents}; name another number by "
            "--agents"
        )
    file = file_of(args.network, number)
    return [
        PlannedMatch(
            check_setup(drawn_match.setup(agents, args.quota, args.board)), [], file
        )
        for hole in holes_of(args, name, network)
        for drawn_match in [draws.DrawnMatch(network, args.home, [hole])]
    ]


def key_of(team: str) -> str:
    """A key that nobody can guess."""
    return f"{team}-{secrets.token_urlsafe(12)}"


def sheet_of(team: str, entries: Sequence[TournamentMatch]) -> str:
    """Returns the text of a team's key sheet."""
    lines = [
        f"Keys of team {team}. Who knows a key can play its agent: show them to nobody.",
        "",
    ]
    for number, entry in enumerate(entries):
        setup = entry.fixture.setup
        if entry.fixture.team != team:
            continue
        lines += [
            f"match {number}: {setup.nodes} nodes, {len(setup.links)} links, {setup.agents} agents, each with "
            f"{setup.quota} commands; whiteboards of {setup.board} bytes",
            f"    {entry.file}, home base {setup.home}",
            *(f"    {key}" for key in entry.fixture.keys),
            "",
        ]
    return "\n".join(lines)


def team_name(word: str) -> str:
    """A team's name."""
    if not re.fullmatch("[a-z0-9-]{1,16}", word):
        raise argparse.ArgumentTypeError(
            f"{word}: a team's name has 1 to 16 characters out of a to z, 0 to 9 and -"
        )
    return word


def number_or(*other_words: str) -> Callable[[str], Union[int, str]]:
    """Takes a whole number from 1, or one of these words."""

    def parse(word: str) -> Union[int, str]:
        if word in other_words:
            return word
        if not re.fullmatch("[1-9][0-9]*", word):
            raise argparse.ArgumentTypeError(
                f"{word}: say a whole number from 1, or {' or '.join(other_words)}"
            )
        return int(word)

    return parse


def add_arguments(parser: argparse.ArgumentParser) -> None:
    """Adds the arguments of `tournament`."""
    parser.add_argument(
        "--team",
        metavar="NAME",
        type=team_name,
        action="append",
        default=[],
        help="a team, and " "more by more of these",
    )
    parser.add_argument(
        "--network",
        metavar="NAME",
        action="append",
        default=[],
        help="a network, and more by more "
        "of these: see `./arena-lab network --help`",
    )
    add_ports(parser, draws.DRAWN)
    parser.add_argument(
        "--home", metavar="V", type=int, default=0, help="the home base (0)"
    )
    parser.add_argument(
        "--hole",
        metavar="V",
        type=int,
        action="append",
        help="a black hole, and more by more of " "these, each in matches of its own",
    )
    parser.add_argument(
        "--holes",
        metavar="N|all",
        type=number_or(ALL),
        default=1,
        help="how many black holes to draw "
        "for each network, each for matches of its own; or all (1)",
    )
    parser.add_argument(
        "--traps",
        metavar="N",
        type=not_negative,
        default=0,
        help="how many traps each team gets: "
        "matches without a black hole, in which nobody arrives at two of the nodes (0)",
    )
    parser.add_argument(
        "--agents",
        metavar="N|degree",
        type=number_or(DEGREE),
        default=2,
        help="how many agents a "
        "team has; `degree` is one more than the network's greatest degree (2)",
    )
    parser.add_argument(
        "--quota",
        metavar="N",
        type=int,
        default=QUOTA,
        help=f"commands that an agent has ({QUOTA})",
    )
    parser.add_argument(
        "--board",
        metavar="N",
        type=int,
        default=BOARD,
        help=f"bytes of a whiteboard ({BOARD})",
    )
    parser.add_argument(
        "--schedule",
        choices=(OBLIVIOUS, ADAPTIVE),
        default=OBLIVIOUS,
        help="how turns choose whom "
        "they deliver; by the oblivious schedule no agent learns by waiting what others do (oblivious)",
    )
    parser.add_argument(
        "--delay-scales",
        metavar="N",
        type=int,
        default=SCALES,
        help="an agent is on a link for less "
        f"than 2^N turns and a few picks ({SCALES})",
    )
    parser.add_argument(
        "--delay-odds",
        metavar="N",
        type=int,
        default=ODDS,
        help="of N moves one takes 1 turn more, "
        f"one 2 or 3, one 4 to 7, and so on ({ODDS})",
    )
    parser.add_argument(
        "--again",
        metavar=("TOURNAMENT", "M"),
        nargs=2,
        help="write another try of match M of a "
        "tournament's file; its networks are named from this folder",
    )
    parser.add_argument(
        "--out",
        metavar="FOLDER",
        type=pathlib.Path,
        required=True,
        help="write it there; the folder " "must not have a tournament",
    )


def run(args: argparse.Namespace) -> int:
    if not args.again and not (args.team and args.network):
        args.refuse(
            "name teams by --team and networks by --network, or a match by --again"
        )
    if args.again and (args.team or args.network):
        args.refuse(
            "--again takes the team and the network of its match: leave --team and --network out"
        )
    path = args.out / TOURNAMENT
    if path.exists():
        raise NetworkError(
            f"{path}: there is a tournament, whose keys teams may have: name another folder by --out"
        )
    return write_again(args) if args.again else write_all(args)


def write_all(args: argparse.Namespace) -> int:
    """Writes the tournament of all teams."""
    check_words(args)
    path = args.out / TOURNAMENT
    entries = entries_of(args)
    setups = {args.out / entry.file: entry.fixture.setup for entry in entries}
    for file in setups:
        # it may be the very file that --network names, with what its author wrote
        # beside the links
        if file.exists():
            raise NetworkError(
                f"{file}: there is a file of this name: name another folder by --out"
            )
    args.out.mkdir(parents=True, exist_ok=True)
    for file, setup in setups.items():
        file.write_text(
            networks.text_of(networks.Network(setup.nodes, setup.links)),
            encoding="utf-8",
        )
    delays = (
        Delays(args.delay_scales, args.delay_odds)
        if args.schedule == OBLIVIOUS
        else None
    )
    for file, text in secret_files(args.team, entries, delays).items():
        write_secret(args.out / file, text)
    print(
        f"{path}: {len(entries)} matches of {len(args.team)} teams; try `arena check {TOURNAMENT}` in the folder"
    )
    print(
        "give each team its sheet: "
        + ", ".join(str(args.out / sheet_name(team)) for team in args.team)
    )
    return 0


def secret_files(
    teams: Sequence[str], entries: Sequence[TournamentMatch], delays: Optional[Delays]
) -> Dict[str, str]:
    """The files that have keys, by name."""
    rows: List[Tuple[Fixture, str]] = [(entry.fixture, entry.file) for entry in entries]
    sheets = {sheet_name(team): sheet_of(team, entries) for team in teams}
    return {**sheets, TOURNAMENT: tournament_text(secrets.token_hex(32), rows, delays)}


def sheet_name(team: str) -> str:
    return f"keys-{team}.txt"


def write_secret(path: pathlib.Path, text: str) -> None:
    """Writes a file that nobody else on the machine may read."""
    path.touch(mode=0o600)
    path.chmod(0o600)
    path.write_text(text, encoding="utf-8")


def write_again(args: argparse.Namespace) -> int:
    """Writes another try of a match of a tournament's file."""
    file, match = args.again
    out = args.out
    tournament = read_tournament(file)
    if not match.isdecimal() or int(match) >= len(tournament.fixtures):
        raise NetworkError(f"{file}: it has no match {match}")
    fixture = drawn_anew(tournament.fixtures[int(match)], args)
    out.mkdir(parents=True, exist_ok=True)
    network = Network(fixture.setup.nodes, fixture.setup.links)
    (out / NETWORK).write_text(networks.text_of(network), encoding="utf-8")
    (out / PLAN_FILE).write_text(f"match = {match}\n", encoding="utf-8")
    for name, text in secret_files(
        [fixture.team], [TournamentMatch(fixture, NETWORK)], tournament.delays
    ).items():
        write_secret(out / name, text)
    print(
        f"{out / TOURNAMENT}: match {match} of team {fixture.team} again; serve it there by "
        f"`arena serve {TOURNAMENT} --port N`"
    )
    print(f"give the team its sheet: {out / sheet_name(fixture.team)}")
    return 0


def drawn_anew(fixture: Fixture, args: argparse.Namespace) -> Fixture:
    """The same match with other keys and labels, and with other nodes that destroy or
    at which nobody arrives."""
    setup = fixture.setup
    if setup.dark:
        raise NetworkError("the match has dark links: write another try of it by hand")
    closed_count = len(closed_nodes(fixture))
    draw_settings = draws.Open(setup.home, len(setup.holes), args.ports, closed_count)
    network = Network(setup.nodes, setup.links)
    match = draws.draw_match(network, CHANCE, draw_settings, draws.SECRET_BITS)
    return fixture._replace(
        setup=match.setup(setup.agents, setup.quota, setup.board),
        keys=[key_of(fixture.team) for _ in fixture.keys],
        held=match.held,
    )


def closed_nodes(fixture: Fixture) -> List[int]:
    """The nodes at which nobody arrives, since all links into them are held."""
    links = fixture.setup.links
    nodes = {
        node
        for node in range(fixture.setup.nodes)
        if set(networks.places_into(links, [node])).issubset(fixture.held)
    }
    if networks.places_into(links, nodes) != sorted(fixture.held):
        raise NetworkError(
            "some links into a node are held and others are not: write another try of the match by hand"
        )
    return sorted(nodes)
