"""A stand-in for `arena serve`, for authors of agents who do not want to build the
program.

    ./arena-lab serve T [--port N] [--sessions S] [--turns K] [--pause MS] [--replay P]
        [--grace MS] [--gather MS] [--early]

It takes the words of `arena serve`, with the same defaults, and listens on 127.0.0.1.
It prints `listening N`, and serves up to S sessions on the matches of tournament T. It
takes K turns by the tournament's schedule, MS milliseconds apart, and closes the
matches. Then it writes the replays to P0.jsonl, P1.jsonl and so on, and prints a table.
Each turn delivers the agent that the arena would deliver. Nothing of it is proved, it
judges no contest and it writes no parts.
"""
import argparse
import pathlib

from arena_lab.play.server import ServeOptions, serve_contest
from arena_lab.rules.delays import PAUSE

# default time in milliseconds in which the agents of a match gather
GATHER = 60_000


def add_arguments(parser: argparse.ArgumentParser) -> None:
    """Adds the arguments of `serve`."""
    parser.add_argument("tournament", metavar="T", help="the tournament's file")
    for option, limit, about in (
        ("port", 4000, "listen on this port of 127.0.0.1"),
        ("sessions", 1024, "serve this many connections"),
        ("turns", 100_000, "close each match after this many turns"),
        ("pause", round(1000 * PAUSE), "wait this many milliseconds before each turn"),
    ):
        parser.add_argument(
            f"--{option}", type=int, default=limit, help=f"{about} ({limit:,})"
        )
    parser.add_argument(
        "--replay",
        metavar="P",
        help="write the replay of each match M to PM.jsonl; by default P is "
        "the tournament's name, and the matches gather for 60,000 milliseconds and end early",
    )
    parser.add_argument(
        "--grace",
        type=int,
        default=10_000,
        metavar="MS",
        help="end the sessions at the latest this many milliseconds after the last close (10,000)",
    )
    parser.add_argument(
        "--gather",
        type=int,
        metavar="MS",
        help="wait this many milliseconds at most until all agents of a match have entered",
    )
    parser.add_argument(
        "--early",
        action="store_true",
        help="close a match once each agent has ended or is lost",
    )


def run(args: argparse.Namespace) -> int:
    is_plain = args.replay is None
    gather = GATHER if is_plain and args.gather is None else args.gather or 0
    prefix = (
        str(pathlib.Path(args.tournament).with_suffix("").name)
        if is_plain
        else args.replay
    )
    serve_contest(
        args.tournament,
        args.port,
        args.sessions,
        prefix,
        ServeOptions(
            args.turns,
            args.pause / 1000,
            gather / 1000,
            args.early or is_plain,
            args.grace / 1000,
        ),
    )
    return 0
