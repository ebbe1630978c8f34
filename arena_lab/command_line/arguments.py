"""Words that commands share: which match is played by whom, which program plays, and
how many processes."""
import argparse
import os
import re
from typing import Any, Callable, List, Optional, Set

from arena_lab.play.agent_files import AgentError
from arena_lab.play.bounds import LIMIT
from arena_lab.play.teams import (
    BOARD,
    SPURIOUS_WAKEUPS,
    NETWORK,
    QUOTA,
    AgentWords,
    Game,
    agent_named,
    fill_team,
)
from arena_lab.rules import draws, networks
from arena_lab.rules.engines import MODEL, PROGRAM, program_at
from arena_lab.rules.fixtures import Fixture, read_tournament
from arena_lab.rules.model import Place
from arena_lab.rules.networks import Network
from arena_lab.support.built import ProgramError


def at_least_one(word: str) -> int:
    """A whole number from 1."""
    return whole_number(word, 1)


def not_negative(word: str) -> int:
    """A whole number from 0."""
    return whole_number(word, 0)


def whole_number(word: str, least: int) -> int:
    if not word.isdecimal() or int(word) < least:
        raise argparse.ArgumentTypeError(f"{word} is not a whole number from {least}")
    return int(word)


def parse_place(word: str) -> Place:
    """Parses a node and a port, such as `3,1`."""
    match = re.fullmatch(r"(\d+),(\d+)", word)
    if not match:
        raise argparse.ArgumentTypeError(
            f"{word} is not a node and a port: write them as in 3,1"
        )
    return int(match[1]), int(match[2])


def ports(word: str) -> draws.Ports:
    """How ports are numbered."""
    try:
        return draws.ports_of(word)
    except networks.NetworkError as fault:
        raise argparse.ArgumentTypeError(str(fault)) from None


def home(word: str) -> Optional[int]:
    """Parses a home base; returns None for `drawn`."""
    return None if word == draws.DRAWN else not_negative(word)


def add_ports(
    parser: "argparse._ActionsContainer",
    default: str = draws.GIVEN,
    each: str = "",
    parse: Callable[[str], Any] = ports,
) -> None:
    """The option that numbers ports."""
    parser.add_argument(
        "--ports",
        metavar="given|drawn|shuffled:SEED",
        type=parse,
        default=draws.ports_of(default),
        help="the numbers of ports: as the network has them, or drawn anew"
        f"{each}, or by this seed ({default})",
    )


class Kinds(argparse.Action):
    """Keeps --agent and --command in one list, in their order."""

    def __call__(self, parser, words, value, option=None) -> None:  # type: ignore[no-untyped-def]
        words.team = [*(words.team or []), agent_named(option.strip("-"), value)]


class Once(argparse.Action):
    """Takes an option that may be given once: the last one would win in silence."""

    def __call__(self, parser, words, value, option=None) -> None:  # type: ignore[no-untyped-def]
        options_given: Set[str] = getattr(words, "given_once", set())
        if option in options_given:
            parser.error(f"{option} is given twice: name one")
        words.given_once = options_given | {option}
        setattr(words, self.dest, value)


def add_timeout(parser: Any) -> None:
    """The option that says how long an agent may take, of a parser or of a group."""
    parser.add_argument(
        "--timeout",
        dest="limit",
        metavar="SECONDS",
        type=float,
        default=LIMIT,
        help=f"how long an agent may take to send or to wait ({LIMIT})",
    )


def add_match(
    parser: argparse.ArgumentParser,
    several: bool = False,
    parse_ports: Callable[[str], Any] = ports,
) -> None:
    """The words that name a match and its team, or the matches on several networks."""
    match = parser.add_argument_group("the match", networks.__doc__)
    match.add_argument(
        "--tournament", metavar="T", help="take the match of a tournament's file"
    )
    match.add_argument(
        "--match",
        metavar="M",
        type=int,
        default=0,
        help="which match of the tournament (0)",
    )
    if several:
        match.add_argument(
            "--network",
            metavar="NAME",
            action="append",
            dest="networks",
            help=f"the network "
            f"({NETWORK}), and more by more of these; ring:3..8 names those of all sizes between",
        )
    else:
        match.add_argument(
            "--network",
            metavar="NAME",
            action=Once,
            default=NETWORK,
            help=f"the network ({NETWORK})",
        )
    add_ports(match, each=" for each seed", parse=parse_ports)
    match.add_argument(
        "--home",
        metavar="V|drawn",
        type=home,
        default=0,
        help="the home base, or `drawn` for another with each seed (0)",
    )
    match.add_argument(
        "--hole",
        metavar="V",
        type=int,
        action="append",
        help="a black hole, and more by more of "
        "these; if nothing that destroys is named, each seed has a black hole of its own",
    )
    match.add_argument(
        "--dark",
        metavar="V,P",
        type=parse_place,
        action="append",
        default=[],
        help="a dark link, by the "
        "node and the port of one of its ends, and more by more of these",
    )
    match.add_argument(
        "--quota",
        metavar="N",
        type=int,
        default=QUOTA,
        help=f"commands that an agent has ({QUOTA})",
    )
    match.add_argument(
        "--board",
        metavar="N",
        type=int,
        default=BOARD,
        help=f"bytes of a whiteboard ({BOARD})",
    )
    team = parser.add_argument_group(
        "the team", "One of these for each agent, in the order of keys, or one for all."
    )
    team.add_argument(
        "--agent",
        metavar="WORDS",
        action=Kinds,
        dest="team",
        help="an agent in Python inside the lab: "
        "FILE.py[:FUNCTION] and whole numbers, {nodes} or {links}; or a WebAssembly module with its "
        "arguments: FILE.wasm[:N,..]",
    )
    team.add_argument(
        "--command",
        metavar="WORDS",
        action=Kinds,
        dest="team",
        help="a program of its own, with "
        "{host}, {port} and {key} for where it connects and by which key it enters, {nodes}, {links} "
        "and {home}",
    )
    team.add_argument(
        "--agents",
        metavar="N",
        type=int,
        help="how many agents there are (2, or as many as are named)",
    )
    add_timeout(team)
    team.add_argument(
        "--spurious-wakeups",
        dest="naps",
        metavar="N",
        type=not_negative,
        default=SPURIOUS_WAKEUPS,
        help="how often an agent inside that sleeps may wake again though nothing has changed in front "
        f"of it ({SPURIOUS_WAKEUPS})",
    )


def team_of(args: argparse.Namespace) -> List[AgentWords]:
    """The agents that the words name; those of a tournament are as many as its keys."""
    agents: List[AgentWords] = args.team
    if not agents:
        raise AgentError("name a team by --agent or --command: see --help")
    return fill_team(
        agents, len(read_fixture(args).keys) if args.tournament else args.agents
    )


def game_of(args: argparse.Namespace) -> Game:
    """The game that the words of a command name."""
    match = read_fixture(args) if args.tournament else None
    network = (
        Network(match.setup.nodes, match.setup.links)
        if match
        else networks.network_named(args.network)
    )
    return Game(
        args.tournament or args.network,
        network,
        team_of(args),
        args.home,
        args.hole or [],
        args.dark,
        args.quota,
        args.board,
        args.naps,
        args.limit,
        match,
        f", match {args.match} of {args.tournament}" if match else "",
        args.ports,
    )


def games_of(args: argparse.Namespace) -> List[Game]:
    """The games that the words of a command name: one for each network, or for each home
    base and numbering of it that is drawn."""
    names = [
        name
        for network_name in args.networks or [NETWORK]
        for name in networks.in_range(network_name)
    ]
    return [
        game
        for name in names
        for game in game_of(
            argparse.Namespace(**{**vars(args), "network": name})
        ).drawn_games()
    ]


def read_fixture(args: argparse.Namespace) -> Fixture:
    """The match of the tournament's file."""
    fixtures: List[Fixture] = read_tournament(args.tournament).fixtures
    if not 0 <= args.match < len(fixtures):
        raise networks.NetworkError(f"{args.tournament}: it has no match {args.match}")
    return fixtures[int(args.match)]


def add_program(parser: argparse.ArgumentParser) -> None:
    """The option that names the program."""
    parser.add_argument(
        "--program",
        metavar="PATH",
        help="the program; by default the proved one if tools/build has "
        "built it, else one without a proof, which is compiled first, by rustc in about a minute, and says so",
    )


def add_engine(parser: argparse.ArgumentParser) -> None:
    """The options that choose the engine."""
    parser.add_argument(
        "--engine",
        choices=(PROGRAM, MODEL),
        default=PROGRAM,
        help="who plays: the program, or "
        "the Python model, which needs no build and proves nothing (program)",
    )
    add_program(parser)


def program_of(args: argparse.Namespace) -> Optional[str]:
    """Returns the path of the program that plays, or None for the Python model."""
    if args.engine == MODEL:
        return None
    try:
        return program_at(args.program, args.needs)
    except ProgramError as fault:
        raise ProgramError(
            f"{fault}; or add `--engine model`: the Python model needs none, and nothing of it is "
            "proved"
        ) from None


def add_workers(parser: argparse.ArgumentParser) -> None:
    """The option that says how many processes play."""
    parser.add_argument(
        "--workers",
        metavar="N",
        type=at_least_one,
        default=os.cpu_count() or 1,
        help="how many processes play (as many as there are processors)",
    )


def add_repeat(parser: argparse.ArgumentParser) -> None:
    """The option that has agents repeated alone."""
    parser.add_argument(
        "--repeat",
        action="store_true",
        help="start each agent of a match again, alone, and tell it "
        "what it was told: a team fails if one of its agents does not say the same, as in a course",
    )


def add_forget(parser: argparse.ArgumentParser) -> None:
    """The option that has the machine forget before agents are repeated."""
    parser.add_argument(
        "--drop-caches",
        action="store_true",
        help="before each round of repetitions, have the whole "
        "machine forget what it keeps of files in memory, which makes all programs on it slower for a "
        "while; for root",
    )
