"""Looks for a schedule after which a team fails, or that makes it move or lose most.

    ./arena-lab hunt --network ring:32 --agent "examples/agents/ring.py {nodes}" --objective moves

A hunt for a failure first plays schedules that are drawn as those of `run`, on the
Python model: half of --runs, and at most 300. Then Hypothesis (Debian's
python3-hypothesis) draws schedules and changes the most promising ones. It draws a
schedule as runs: which of the possible choices, and how often in a row. What is found
is made small. If you name neither a black hole nor a dark link, it draws the black hole
too, and with --any-home the home base. A team fails by any verdict but `solved`; it
also fails if an agent raises an exception, is refused without end, or is stuck. A
failure ends every hunt. The program plays and judges the find, and the command writes
it to a folder: its schedule, the script for `arena rehearse`, its replay and a page.
The exit status is 1 if the team fails.

Agents may be programs in any language (--command). Each schedule starts them anew, so
it tries some ten a second: give --runs. They must be functions of what they are told.
With --repeat each agent of a match is started again, alone, and told what it was told;
a team fails if one of its agents does not say the same, as in a course.
"""
import argparse
import pathlib
from typing import Optional

from arena_lab.command_line.arguments import (
    add_engine,
    add_match,
    add_repeat,
    at_least_one,
    game_of,
    program_of,
)
from arena_lab.play import kept_matches
from arena_lab.play.repetitions import SAYS_OTHERWISE
from arena_lab.search.hunts import (
    FAILURE,
    LOST,
    MOVES,
    RUNS,
    Hunt,
    Hunter,
    HuntedMatch,
    run_hunter,
)
from arena_lab.support.progress import bar

FOLDER = kept_matches.FOLDER
DATABASE = pathlib.Path("out/hunted")


def add_arguments(parser: argparse.ArgumentParser) -> None:
    """Adds the arguments of `hunt`."""
    add_match(parser)
    parser.add_argument(
        "--objective",
        dest="looked_for",
        choices=(FAILURE, MOVES, LOST),
        default=FAILURE,
        help="look for a team that fails, or for the most moves or lost agents (failure)",
    )
    parser.add_argument(
        "--any-home", action="store_true", help="draw the home base too"
    )
    parser.add_argument(
        "--runs",
        metavar="N",
        type=at_least_one,
        default=RUNS,
        help=f"how many schedules to try ({RUNS})",
    )
    parser.add_argument(
        "--seed", metavar="S", type=int, default=0, help="the search's seed (0)"
    )
    parser.add_argument(
        "--database",
        metavar="FOLDER",
        type=pathlib.Path,
        default=DATABASE,
        help="where earlier finds " f"are kept, which are tried first ({DATABASE})",
    )
    add_repeat(parser)
    parser.add_argument(
        "--keep",
        metavar="FOLDER",
        type=pathlib.Path,
        default=FOLDER,
        help="write what is found there " f"({FOLDER})",
    )
    add_engine(parser)


def run(args: argparse.Namespace) -> int:
    program = program_of(args)
    hunt = Hunt(
        game_of(args),
        args.looked_for,
        args.any_home,
        args.runs,
        args.seed,
        args.database,
        args.repeat,
    )
    with bar(args.runs, "schedule") as progress:
        hunter = Hunter(hunt, progress)
        run_hunter(hunter)
        progress.clear()
    if hunter.was_stopped:
        print("interrupted; this was found:")
    if hunter.best is None:
        return 130
    return report_hunt(hunter, hunter.best, args.keep, program)


def report_hunt(
    hunter: Hunter, best: HuntedMatch, keep: pathlib.Path, program: Optional[str]
) -> int:
    """Reports the best match of a hunt, and writes it."""
    looked_for = hunter.asked.looked_for
    setup = best.fixture.setup
    text = (
        f"the team fails, first under number {hunter.failed_at}"
        if best.has_failed
        else "the team solved its network under each"
    )
    print(f"{hunter.tried} schedules were tried: {text}")
    if best.has_failed or looked_for != FAILURE:
        print(
            f"{'it comes to' if best.has_failed else 'the most ' + looked_for}: home {setup.home} holes "
            f"{setup.holes}, {best.match.verdict()}"
        )
        for fault in best.match.faults:
            if SAYS_OTHERWISE in fault:
                print(fault)
        kept_matches.keep(keep, hunter.schedule(), program)
    return 1 if best.has_failed else 130 if hunter.was_stopped else 0
