"""Plays a schedule again, and compares every byte of the replay.

    ./arena-lab replay FOLDER|SCHEDULE [--against REPLAY]

FOLDER is one that `run`, `hunt` or `explore` wrote. The command plays its schedule and
compares the replay with the one in the folder, and the files beside it with what would
be written now. The exit status is 1 if something differs, or if the agents' files are
others. You may change a schedule by hand: it has one choice a line.

With --follow a program that was mended is tried against what it failed under: its
schedule is followed as far as the agents go along, the command says where they left it,
and what comes then is drawn fairly. The exit status is 1 if the team fails. --keep
writes what came of it.

    ./arena-lab replay out/find --follow
"""
import argparse
import pathlib
import sys
from typing import List

from arena_lab.command_line.arguments import add_engine, program_of
from arena_lab.play import kept_matches
from arena_lab.play.schedules import Schedule, read_schedule
from arena_lab.play.teams import digests_of
from arena_lab.support.faults import ArenaError


def add_arguments(parser: argparse.ArgumentParser) -> None:
    """Adds the arguments of `replay`."""
    parser.add_argument(
        "schedule",
        metavar="FOLDER|SCHEDULE",
        type=pathlib.Path,
        help="what was kept, or a schedule",
    )
    parser.add_argument(
        "--against",
        metavar="REPLAY",
        type=pathlib.Path,
        help="compare with this replay",
    )
    parser.add_argument(
        "--out", metavar="REPLAY", type=pathlib.Path, help="write the replay there"
    )
    parser.add_argument(
        "--follow",
        action="store_true",
        help="follow the schedule as far as the agents go along, and " "go on fairly",
    )
    parser.add_argument(
        "--keep",
        metavar="FOLDER",
        type=pathlib.Path,
        help="with --follow: write the match there",
    )
    parser.add_argument(
        "--timeout",
        dest="limit",
        metavar="SECONDS",
        type=float,
        help="how long an agent may take to "
        "send or to wait (as long as when the schedule was made)",
    )
    add_engine(parser)


def run(args: argparse.Namespace) -> int:
    path = args.schedule
    against = args.against
    folder = path if path.is_dir() else None
    if folder:
        path = folder / kept_matches.SCHEDULE
        against = against or folder / kept_matches.REPLAY
    schedule = read_schedule(path)
    if args.limit is not None:
        schedule = schedule._replace(limit=args.limit)
    if args.follow:
        return follow(args, schedule)
    if args.keep:
        raise ArenaError(
            "--keep needs --follow: what is played again stands in the folder already"
        )
    other_paths = other_files(schedule)
    for file in other_paths:
        print(
            f"arena-lab: {file} is another file than when the schedule was made",
            file=sys.stderr,
        )
    program = program_of(args)
    match = kept_matches.played_again(schedule, program)
    print(match.verdict())
    for fault in [*match.faults, *match.refusals]:
        print(fault)
    if args.out:
        args.out.write_bytes(match.replay)
    if against is None:
        return 1 if match.has_failed() else 0
    same = against.read_bytes() == match.replay
    print(
        f"the replay is {'the same' if same else 'another one'}, byte for byte: {against}"
    )
    changes = (
        kept_matches.changed_in(folder, schedule, match, program) if folder else []
    )
    for name in changes:
        print(f"{folder / name} is not what belongs to this schedule")
    return 0 if same and not other_paths and not changes else 1


def follow(args: argparse.Namespace, schedule: Schedule) -> int:
    """Follows the schedule as far as the agents go along."""
    program = program_of(args)
    new_schedule, match, follower = kept_matches.followed_again(schedule, program)
    print(
        "\n".join([str(follower), str(match.verdict()), *match.faults, *match.refusals])
    )
    if args.out:
        args.out.write_bytes(match.replay)
    if args.keep:
        print(
            "\n".join(kept_matches.write_find(args.keep, new_schedule, match, program))
        )
    return 1 if match.has_failed() else 0


def other_files(schedule: Schedule) -> List[str]:
    """Returns the agents' files whose contents have changed since the schedule was
    recorded, or that the schedule's head does not name."""
    now = digests_of(schedule.agents)
    return sorted(
        file
        for file in {*now, *schedule.files}
        if now.get(file) != schedule.files.get(file)
    )
