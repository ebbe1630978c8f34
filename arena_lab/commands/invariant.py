"""Tries a candidate invariant of a protocol on every configuration that schedules of small networks reach.

    ./arena-lab invariant examples/invariants/shuttle.py --network ring:3..5 \\
        --agent "examples/agents/shuttle.py {nodes} 0" --agent "examples/agents/shuttle.py {nodes} 1"

A proof that a team solves every network of a kind needs an invariant: a test that all configurations of a match meet,
with a number that falls with each turn (docs/PROVING.md). Before you prove one, write it in Python and try it: a wrong
one fails in seconds, and the command shows where. A candidate is a file with

    holds(world, configuration) -> bool   the test
    left(world, configuration) -> int     how many turns are left at most; it is to fall with each turn (may be missing)
    bounds(world) -> Bounds               the most moves, agents lost, commands of an agent and turns (may be missing)

A configuration has `position`, `history`, `woken`, `used` and `accused` of each agent, `shown` of each node's
whiteboard, the set `reached`, and `moves`. A world has `nodes`, `degree(node)`, `far(node, port)`, `home`, `holes`,
`dark`, `doomed(node, port)`, `agents`, `quota` and `board`. A position is Before(), At(node, came), Bound(node, port)
or After(); these and Bounds are imported from arena_lab.search.configurations. A history has the replies of an agent,
the newest first, and None where it woke; `held_after` there folds what an agent holds out of it.

If you name neither a black hole nor a dark link, each node but the home base is the black hole in turn. All orders of
turns are tried, the shortest schedules first, up to the first configuration at which the candidate is wrong: the test
does not hold, or `left` does not fall or begins above the bound on turns, a bound is passed, an agent has failed, or
nothing more can happen and the match is not solved with few agents lost. The command prints the schedule that leads
there, what the configuration shows, and writes it to a folder: `./arena-lab replay` plays it again, and its script.txt
is one for `arena rehearse`. The exit status is 1 then.

What it does not show: only configurations that some schedule reaches are tried, on these networks, with agents that do
what these programs do, by the Python model, of which nothing is proved. An invariant has to be kept by each turn from
every configuration in which it holds, also from those that no schedule reaches, so a candidate that holds everywhere
here may still be too weak to be proved.
"""
import argparse
import pathlib
from typing import Iterator, List

from arena_lab.command_line.arguments import add_match, at_least_one, games_of
from arena_lab.play import kept_matches
from arena_lab.play.agent_files import file_of
from arena_lab.play.games import play_again
from arena_lab.play.teams import Game
from arena_lab.search.model_search import MAX_STATES, check_inside
from arena_lab.search.invariants import Breach, Candidate, WalkedMatch, walk_match
from arena_lab.search.configurations import After, At, Before, Configuration
from arena_lab.support.progress import bar

REACHED_ALONE = "configurations that no schedule reaches were not tried"


def add_arguments(parser: argparse.ArgumentParser) -> None:
    """Adds the arguments of `invariant`."""
    parser.add_argument(
        "candidate", metavar="CANDIDATE.py", help="the file with the candidate"
    )
    add_match(parser, several=True)
    parser.add_argument(
        "--max-states",
        dest="states",
        metavar="N",
        type=at_least_one,
        default=MAX_STATES,
        help=f"the most configurations of a match to try ({MAX_STATES})",
    )
    parser.add_argument(
        "--keep",
        metavar="FOLDER",
        type=pathlib.Path,
        default=kept_matches.FOLDER,
        help="write the schedule to the first configuration at which the candidate is wrong there "
        f"({kept_matches.FOLDER})",
    )


def run(args: argparse.Namespace) -> int:
    games = games_of(args)
    candidate = Candidate(file_of(args.candidate))
    for game in games:
        check_inside(game)
    count = 0
    matches = 0
    for game in games:
        for match in try_matches(game, candidate, args.states):
            if match.walk.breach is not None:
                report_breach(game, match, match.walk.breach, args.keep)
                return 1
            if not match.is_whole:
                print(
                    "stopped before all configurations were tried; the candidate held at those that were"
                )
                return 130
            count = count + match.walk.states()
            matches = matches + 1
    print(
        f"the candidate holds at all {count} configurations of "
        f"{count_text(matches, 'match', 'matches')}; {REACHED_ALONE}"
    )
    return 0


def try_matches(game: Game, candidate: Candidate, states: int) -> Iterator[WalkedMatch]:
    """Walks the matches of a game one after the other, and prints a line for each."""
    with bar(None, "configuration") as progress:
        for fixture in game.fixtures():
            match = walk_match(
                fixture, game.agents, candidate, progress, states, game.limit
            )
            progress.clear()
            print(line_of(game, match), flush=True)
            yield match


def line_of(game: Game, match: WalkedMatch) -> str:
    """Returns the line that reports one walked match."""
    walk = match.walk
    setup = walk.fixture.setup
    text = f"holds, most moves {walk.most_moves}"
    if walk.breach is not None:
        turns = len(walk.breach.choices)
        text = (
            f"after {count_text(turns, 'turn', 'turns')}: "
            if turns
            else "at the start: "
        ) + walk.breach.why
    elif not match.is_whole:
        text = "stopped"
    configurations = count_text(walk.states(), "configuration", "configurations")
    return f"{game.name} home {setup.home} holes {setup.holes}: {configurations}, {text}, {match.seconds:.1f} s"


def count_text(count: int, singular: str, extra: str) -> str:
    return f"{count} {singular if count == 1 else extra}"


def report_breach(
    game: Game, match: WalkedMatch, breach: Breach, keep: pathlib.Path
) -> None:
    """Prints the schedule to a configuration at which a candidate is wrong, and the configuration;
    keeps the schedule."""
    for choice in breach.choices:
        print(f"{choice.do} {choice.agent}")
    print("\n".join(configuration_text(breach)))
    print("\n".join(play_again(match.schedule(game), None).keep(keep)))


def configuration_text(breach: Breach) -> List[str]:
    """A configuration in words: a line for each agent, for each whiteboard that shows
    something, and for the rest."""
    configuration = breach.configuration
    lines = [
        f"agent {agent} {place_in_words(configuration, agent)}, {position}"
        for agent, position in enumerate(breach.next)
    ]
    lines += [
        f"the whiteboard of node {node} shows {text!r}"
        for node, text in enumerate(configuration.shown)
        if text
    ]
    visited = ", ".join(map(str, sorted(configuration.reached))) or "none"
    return [
        *lines,
        f"nodes at which an agent has arrived: {visited}; moves {configuration.moves}",
    ]


def place_in_words(configuration: Configuration, agent: int) -> str:
    """Describes an agent's position, the commands that it used and its accusation."""
    position = configuration.position[agent]
    accusation = configuration.accused[agent]
    if isinstance(position, Before):
        return "has not entered"
    usage = f"has used {count_text(configuration.used[agent], 'command', 'commands')}"
    if isinstance(position, After):
        return (
            f"has left, {usage}"
            if accusation is None
            else f"has accused port {accusation[1]} of node {accusation[0]}, {usage}"
        )
    if isinstance(position, At):
        arrival = "" if position.came is None else f", came by port {position.came}"
        return f"is at node {position.node}{arrival}, {usage}"
    return f"is on the link of port {position.port} of node {position.node}, {usage}"
