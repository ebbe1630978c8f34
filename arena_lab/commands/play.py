"""Lets a person play the agents: you see what an agent sees, and no more.

    ./arena-lab play --network ring:6
    ./arena-lab play --network ring:6 --page
    ./arena-lab play --network ring:6 --riddle

Two agents (--agents N) search a network for its black hole. You say what each of them
does, and switch between them. Time passes when you say so: then one of the agents that
are on links is chosen by chance, and arrives if it can. With --second-person nothing is
chosen: another person says who arrives, by `arrive N`, and tries to lead you astray.

With --riddle the network has a black hole, or else a node at which nobody arrives, as
all links into it are slow for ever. In the end you are told which of the two it is. Can
you find out before?

With --page you play in a browser, on a page whose address, with a token, is printed:
click a port to depart through it. It needs Debian's package python3-aiohttp, and Ctrl-C ends it.

The Python model plays by the rules of a contest. At the end the whole match is shown;
--keep FOLDER writes its replay and a page on which one can watch it.
"""
import argparse
import pathlib
import random
import sys
from typing import Callable, Dict, List, Optional, Sequence

from arena_lab.command_line.arguments import at_least_one, not_negative
from arena_lab.pages.match_page import write_page
from arena_lab.pages.person import serve
from arena_lab.play.human import (
    AT_A_NODE,
    ENDED,
    MATCH_OVER,
    ON_A_LINK,
    OUTSIDE,
    HumanMatch,
    trails,
)
from arena_lab.rules import draws, networks
from arena_lab.rules.fixtures import fixture_of
from arena_lab.rules.model import Object
from arena_lab.support.faults import ArenaError

HELP = """  enter             enter the match at the home base
  0, 1, ..          depart through this port
  write TEXT        put a text on the whiteboard, if it still shows what the agent saw last
  look              look at the node again
  accuse P          a black hole is behind port P; the agent ends
  leave             leave the match
  agent N           play agent N; an empty line plays the next one
  wait              let time pass: somebody on a link may arrive
  end               end the match, and show all of it"""
ARRIVE = "  arrive N          for the second person: let agent N arrive"
PLACES = {
    OUTSIDE: "has not entered yet",
    ON_A_LINK: "is on a link; nothing is heard of it",
    ENDED: "has ended",
    MATCH_OVER: "was told that the match is over",
}


def add_arguments(parser: argparse.ArgumentParser) -> None:
    """Adds the arguments of `play`."""
    parser.add_argument(
        "--network",
        default="ring:6",
        help="the network (ring:6); `./arena-lab network --help` names them",
    )
    parser.add_argument(
        "--agents",
        metavar="N",
        type=at_least_one,
        default=2,
        help="how many agents (2)",
    )
    parser.add_argument(
        "--hole",
        metavar="V",
        type=not_negative,
        help="the black hole; by default it is drawn",
    )
    parser.add_argument(
        "--seed",
        metavar="S",
        type=not_negative,
        help="draw by this seed, to play the same again",
    )
    parser.add_argument(
        "--riddle",
        action="store_true",
        help="draw whether there is a black hole, or a node at which " "nobody arrives",
    )
    parser.add_argument(
        "--second-person", action="store_true", help="another person says who arrives"
    )
    parser.add_argument("--page", action="store_true", help="play in a browser")
    parser.add_argument(
        "--port",
        metavar="N",
        type=at_least_one,
        default=8081,
        help="the port of the page (8081)",
    )
    parser.add_argument(
        "--keep",
        metavar="FOLDER",
        type=pathlib.Path,
        help="write the replay and a page there",
    )


def run(args: argparse.Namespace) -> int:
    if args.page and args.second_person:
        raise ArenaError(
            "a second person plays in the terminal: leave out --page or --second-person"
        )
    match = match_of(args)
    if args.page:
        serve(match, args.network, args.port)
    else:
        play_lines(match, args.second_person)
    if args.keep is not None:
        if not match.is_over:
            match.end()
        write_match(match, args.keep)
    return 0


def match_of(args: argparse.Namespace) -> HumanMatch:
    """The match of the words. In a riddle without a black hole nobody arrives where it
    would be."""
    rng = random.Random(args.seed)
    network = networks.check_biconnected(args.network)
    hole = args.hole
    if hole is None:
        hole = draws.sample_nodes(network, 0, 1, rng)[0]
    is_slow = args.riddle and rng.random() < 0.5
    match = draws.DrawnMatch(network, 0, [] if is_slow else [hole])
    fixture = fixture_of(match.setup(args.agents, 1000, 64), args.seed)
    if is_slow:
        fixture = fixture._replace(held=networks.places_into(network.links, [hole]))
    return HumanMatch(fixture, rng)


def play_lines(match: HumanMatch, by_second_person: bool) -> None:
    """Reads what the person says, line by line, until the match is over."""
    print(HELP + (f"\n{ARRIVE}" if by_second_person else ""))
    now = 0
    while not match.is_over:
        print(sight(match, now))
        try:
            line = input("> ").split(maxsplit=1)
        except EOFError:
            line = ["end"]
        if line == ["end"]:
            break
        if not line:
            now = (now + 1) % len(match.seen)
        elif line[0] == "agent":
            now = number_in(line, len(match.seen), now)
        else:
            message = do_line(match, now, line, by_second_person)
            if message:
                print(message)
    print("\n".join(end_of(match)))


def number_in(line: Sequence[str], limit: int, otherwise: int) -> int:
    word = line[1] if len(line) > 1 else ""
    return int(word) if word.isdecimal() and int(word) < limit else otherwise


def do_line(
    match: HumanMatch, now: int, line: List[str], by_second_person: bool
) -> str:
    """Does what a line says. Gives what to say if it cannot be done."""
    if line[0] == "wait" and not by_second_person:
        match.wait()
        return ""
    if line[0] == "arrive" and by_second_person:
        match.deliver(number_in(line, len(match.seen), -1))
        return ""
    command = command_in(match, now, line)
    if command is None:
        return HELP
    if not match.may_say(now):
        return f"Agent {now} {PLACES[match.seen[now].standing]}: it can do nothing now."
    match.say(now, command)
    answer = match.seen[now].lines[-1].text
    return f"Refused: {answer}" if answer.startswith('{"no"') else ""


def command_in(match: HumanMatch, now: int, line: List[str]) -> Optional[Object]:
    """Parses a line of the person into a command of the protocol; returns None if it is
    none."""
    word = line[0]
    rest = line[1] if len(line) > 1 else ""
    if word.isdecimal():
        return {"do": "depart", "port": int(word)}
    plain: Dict[str, Callable[[], Object]] = {
        "enter": lambda: {"do": "enter"},
        "look": lambda: {"do": "look"},
        "leave": lambda: {"do": "leave"},
        "write": lambda: {"do": "write", "expect": match.seen[now].board, "put": rest},
    }
    if word == "accuse" and rest.isdecimal():
        return {"do": "accuse", "port": int(rest)}
    return plain[word]() if word in plain else None


def sight(match: HumanMatch, now: int) -> str:
    """Describes what the played agent sees, and where the other agents are."""
    record = match.seen[now]
    if record.standing != AT_A_NODE:
        return f"\nAgent {now} {PLACES[record.standing]}."
    arrival = (
        "it came by none" if record.came is None else f"it came by port {record.came}"
    )
    board = (
        f"the whiteboard says: {record.board}"
        if record.board
        else "the whiteboard is empty"
    )
    return f"\nAgent {now} is at a node with ports 0 to {record.ports - 1}; {arrival}; {board}"


def end_of(match: HumanMatch) -> List[str]:
    """Ends the match, and says all of it."""
    report_lines = match.end()
    setup = match.fixture.setup
    far = match.match.far
    lines = [
        "",
        f"The match is over: {report_lines}",
        f"The home base is node {setup.home}.",
    ]
    if setup.holes:
        lines.append(f"The black hole is node {setup.holes[0]}.")
    for node in sorted({far[node][port][0] for node, port in match.fixture.held}):
        lines.append(f"There is no black hole: nobody arrives at node {node}.")
    for node in range(setup.nodes):
        ends = ", ".join(
            f"{port} to node {end}" for port, (end, _) in sorted(far[node].items())
        )
        lines.append(f"  node {node}: ports {ends}")
    for agent, (trail, is_lost) in enumerate(trails(match.match)):
        went = ", ".join(map(str, trail)) or "nowhere"
        lines.append(
            f"  agent {agent} was at nodes {went}"
            + (", and was destroyed" if is_lost else "")
        )
    return lines


def write_match(match: HumanMatch, folder: pathlib.Path) -> None:
    """Writes the replay and the page of a finished match."""
    folder.mkdir(parents=True, exist_ok=True)
    replay = folder / "match0.jsonl"
    replay.write_bytes(match.replay())
    write_page(None, replay, replay.with_suffix(".html"))
    print(f"watch it: {replay.with_suffix('.html')}", file=sys.stderr)
