"""Shows a contest that goes on, for a projector: a web server whose pages update by
themselves.

    ./arena-lab watch TOURNAMENT PREFIX [--port 8080] [--address A] [--turns K] [--pause MS] [--gather MS] [--open]

TOURNAMENT is the file that `arena serve` serves, and PREFIX what its --replay names.
Start it before the contest or at any time in it; it reads the parts of the replays as
they grow, and goes on when the server is started again.

While a match goes on the page shows its team and network, whether it waits for its
agents, since when its turns go on, and how many of its agents have entered, and nothing
that would tell an agent more than it has met. Once it is closed its verdict is shown;
once all are closed each match has its page, on which it is played from its start to its
end at the speed that you choose. With --gather and --pause, as `serve` has them, the
page knows since when the turns of a match go on whose agents do not all come, or that
began before this program.

With --open each match has its page at once, and the page follows it: everybody sees the
black holes, so this is for practice and talks alone. The page then also says the last
turn that the server wrote, which has them under the oblivious schedule; with --turns,
as `serve` has it, of how many. Without --open it says no turn, since an agent cannot
see when others act; the operator asks the server for `status`.

It serves this machine alone, unless --address names another address, and answers who
has the token of the address that it prints. It needs Debian's
package python3-aiohttp, and python3-networkx for the pages of matches.
"""
import argparse
import pathlib

from arena_lab.pages.contest_pages import matches_of
from arena_lab.pages.feeds import MatchFeed
from arena_lab.pages.projector import ContestView, show


def add_arguments(parser: argparse.ArgumentParser) -> None:
    """Adds the arguments of `watch`."""
    parser.add_argument(
        "tournament",
        metavar="TOURNAMENT",
        type=pathlib.Path,
        help="the file that is served",
    )
    parser.add_argument(
        "prefix",
        metavar="PREFIX",
        help="what --replay names: the part of match M is " "PREFIXM.jsonl.part",
    )
    parser.add_argument(
        "--port",
        metavar="N",
        type=int,
        default=8080,
        help="the port to listen on (8080)",
    )
    parser.add_argument(
        "--address",
        metavar="A",
        default="127.0.0.1",
        help="the address to listen on (127.0.0.1); "
        "0.0.0.0 shows the page to every machine that reaches this one",
    )
    parser.add_argument(
        "--host",
        metavar="NAME",
        action="append",
        default=[],
        type=str.lower,
        help="answer also who "
        "asks for this name, and more by more of these; whoever asks by an address, by localhost or by "
        "this machine's name is answered anyway",
    )
    parser.add_argument(
        "--turns",
        metavar="K",
        type=int,
        help="how many turns a match has, as `serve` was told",
    )
    parser.add_argument(
        "--pause",
        metavar="MS",
        type=int,
        help="the pause before each turn, as `serve` was told",
    )
    parser.add_argument(
        "--gather",
        metavar="MS",
        type=int,
        help="for how long a match waits for its agents, as "
        "`serve` was told: by default until all have entered",
    )
    parser.add_argument(
        "--open",
        action="store_true",
        help="show each match as it goes, with its black holes: for "
        "practice and talks",
    )


def run(args: argparse.Namespace) -> int:
    turns = {"turns": args.turns} if args.turns else {}
    matches = matches_of(args.tournament)
    gather, pause = (
        None if seconds is None else seconds / 1000
        for seconds in (args.gather, args.pause)
    )
    feeds = [
        MatchFeed(args.prefix, number, gather, pause) for number in range(len(matches))
    ]
    contest = ContestView(matches, feeds, args.open)
    show(contest, args.tournament.stem, (args.address, args.port), turns, args.host)
    return 0
