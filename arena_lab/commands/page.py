"""Writes a page that shows a match that has ended, or the pages of a contest.

    ./arena-lab page REPLAY [--out PAGE] [--twin V] [--program PATH | --engine model]
    ./arena-lab page REPLAY --link ADDRESS [--program PATH | --engine model]
    ./arena-lab page TOURNAMENT PREFIX --out FOLDER [--again FOLDER] [--program PATH | --engine model]

The page is one HTML file that opens without a network: REPLAY with the ending `.html`,
or PAGE. With --twin it shows beside the match its twin whose black hole is node V. The
program `arena` judges the replay, explains it and makes the twin; a replay that it
refuses is refused here with its line and its status. With --engine model the Python
model judges and explains, which needs no build of the program and proves nothing; it
makes no twins.

With --link nothing is written. A link is printed that shows the match on the page of
ADDRESS, which is `play/index.html` of the site that tools/site builds, or a file of that
name. The link holds the replay, so that no server has to keep it.

Of a contest, TOURNAMENT is the file that was served, and PREFIX what its --replay
named: the replay of match M is PREFIXM.jsonl. The folder gets index.html, which has the
table of the contest with links, and beside it the page and the replay of each match. A
match without a replay, as after a server that was killed, is listed so. --again FOLDER
takes another try of a match in: the folder is that of `./arena-lab tournament --again`,
in which its server was started. The better of the tries counts, or the last one with
--take last.

Networks are laid out by Debian's package python3-networkx with python3-numpy and
python3-scipy, which that package recommends.
"""
import argparse
import pathlib

from arena_lab.command_line.arguments import add_engine, program_of
from arena_lab.pages.contest_pages import BETTER, LAST, Tries, write_pages
from arena_lab.pages.links import replay_link
from arena_lab.pages.match_page import data_of, write_page


def add_arguments(parser: argparse.ArgumentParser) -> None:
    """Adds the arguments of `page`."""
    parser.add_argument(
        "file",
        metavar="REPLAY",
        type=pathlib.Path,
        help="a replay, as the arena writes it; or, "
        "before a PREFIX, the tournament's file that was served",
    )
    parser.add_argument(
        "prefix",
        metavar="PREFIX",
        nargs="?",
        help="what --replay of the server named: the replay of "
        "match M is PREFIXM.jsonl",
    )
    parser.add_argument(
        "--out",
        metavar="PAGE",
        type=pathlib.Path,
        help="write the page there, or the pages of a " "contest into this folder",
    )
    parser.add_argument(
        "--twin",
        metavar="V",
        type=int,
        help="show the twin whose black hole is node V beside it",
    )
    parser.add_argument(
        "--link",
        metavar="ADDRESS",
        help="print a link to the page that plays in the browser, at this address",
    )
    parser.add_argument(
        "--again",
        metavar="FOLDER",
        type=pathlib.Path,
        action="append",
        default=[],
        help="another try "
        "of a match, and more by more of these, in the order in which they were played",
    )
    parser.add_argument(
        "--take",
        choices=(BETTER, LAST),
        default=BETTER,
        help="which of the tries counts (better)",
    )
    add_engine(parser)


def run(args: argparse.Namespace) -> int:
    if args.link is not None:
        if args.prefix or args.out or args.twin is not None or args.again:
            args.refuse("--link prints a link to one REPLAY, and writes no page")
        program = program_of(args)
        # whoever refuses the replay says so before a link is printed
        data_of(program, args.file, None, "")
        print(replay_link(args.link, args.file.read_bytes()))
        return 0
    if args.prefix is None:
        if args.again:
            args.refuse(
                "--again is for a contest: name its TOURNAMENT and the PREFIX of its replays"
            )
        write_page(
            program_of(args),
            args.file,
            args.out or args.file.with_suffix(".html"),
            args.twin,
        )
        return 0
    if not args.out or args.twin is not None:
        args.refuse(
            "the pages of a contest need a folder, by --out FOLDER, and have no --twin"
        )
    tries = Tries(args.again, args.take)
    print(write_pages(program_of(args), args.file, args.prefix, args.out, tries))
    return 0
