"""Grades the programs of a course: plays them all, and writes a league table and a page
for each team.

    ./arena-lab grade examples/course/course.toml --out out/course
    ./arena-lab grade out/course --repeat-only

Each team plays the same matches. The folder gets `league.html` and `league.csv`, the
table of all teams (matches solved first, then the moves and the lost agents of these);
`team-NAME.html` for each team; `runs.csv`, a row for each match; and in `failed` each
match that a team failed, with its schedule, its replay and its page, and with the
smallest schedule that was found after which the team fails on the same network. The
same file and programs give the same bytes on every run, if the programs are functions
of what they are told. Interrupted, the same command goes on behind the last row.

A solved match counts only if it repeats. When all matches have been played, the lab
starts each agent of it again, alone in a new sandbox, and tells it what it was told:
the agent must say what it said. What another program signals past the whiteboards only
while it runs is not there to be heard. The first difference stands on the team's page,
`repeats.csv` has a row for each solved match, and `solved` has the replays. A program
may use what it is told and the number in ARENA_SEED, and nothing else: no clock, and no
other random numbers. With `--no-repeat` the lab leaves that out.

With `--repeat-only` it does nothing else, and writes nothing. The folder of results has
all that is needed: the course's file, what each team has handed in, the secret, and the
replays of solved matches. So you can copy it to another machine, and repeat there: what
an agent has left in the kernel of the first machine is not there. The order is drawn
anew on each run. A line for each team says how many of its solved matches repeat, and a
line for each that does not says which agent says something else, at which command. The
exit status is 1 if a match does not repeat that counted when the course was graded.

A program that crashes, hangs, or sends rubbish fails its own matches, and so does one
that is handed in with too much or takes too long. Each program runs in a folder of its
own, and what else keeps it apart depends on the machine; the command says on standard
error what does not. With Debian's bubblewrap and python3-seccomp a program sees neither
other teams' files nor the other agents of its team. Black holes that are drawn, keys,
and what schedulers draw come from a secret, which the first run draws and keeps in
`secret.txt` in the folder. The exit status is 0 if all was graded, however teams did,
and 1 if the lab itself could not play a match.

For a student: with `--engine model` the command grades a course without a build of the
program, and root is not needed.
"""
import argparse
import pathlib
import sys

from arena_lab.command_line.arguments import (
    add_engine,
    add_forget,
    add_workers,
    program_of,
)
from arena_lab.course import course_files, export, points
from arena_lab.course.graded_matches import GradingRun
from arena_lab.course.grading import graded_in, hand_ins
from arena_lab.course.course_repetition import repeat_graded
from arena_lab.sandbox import sandboxes
from arena_lab.sandbox.sandboxes import Isolation, SandboxOptions
from arena_lab.support.missing import check
from arena_lab.sweep import tables

# packages that write the pages of a course; without them grading would fail at its end
PACKAGES = ("jinja2",)


def add_arguments(parser: argparse.ArgumentParser) -> None:
    """Adds the arguments of `grade`."""
    group = parser.add_argument_group("the file", course_files.KEYS)
    parser.add_argument_group("points", points.__doc__)
    parser.add_argument_group("exports", export.__doc__)
    group.add_argument(
        "file",
        metavar="COURSE.toml",
        type=pathlib.Path,
        help="the course; or, with " "--repeat-only, the folder of its results",
    )
    parser.add_argument(
        "--out", metavar="FOLDER", type=pathlib.Path, help="write everything there"
    )
    parser.add_argument(
        "--repeat-only",
        action="store_true",
        help="repeat the solved matches of a graded course once "
        "more, also on another machine",
    )
    parser.add_argument(
        "--secret",
        metavar="FILE",
        type=pathlib.Path,
        help="take the secret that this file has, such "
        "as the `secret.txt` of other results, to play the same matches",
    )
    parser.add_argument(
        "--no-repeat",
        action="store_true",
        help="count all solved matches, also those whose agents "
        "would say something else when they are told the same again",
    )
    parser.add_argument(
        "--export",
        metavar="KIND",
        action="extend",
        nargs="+",
        choices=export.KINDS,
        help="write points for a gradebook too: gradescope, moodle, junit, csv; several at once",
    )
    parser.add_argument(
        "--students",
        metavar="FILE",
        type=pathlib.Path,
        help="for moodle: the students of teams "
        f"({export.STUDENTS} beside the course)",
    )
    add_forget(parser)
    add_workers(parser)
    add_engine(parser)


def run(args: argparse.Namespace) -> int:
    if args.repeat_only:
        return repeat_graded(args.file, args.workers, args.drop_caches)
    if not args.out:
        args.refuse("name a folder for the results by --out FOLDER")
    check(*PACKAGES)
    path = args.file.resolve()
    strongest = sandboxes.strongest()
    course_file = course_files.read_course(path, "")
    course_files.check_networks(course_file)
    submitted_files = [file for files in course_file.files.values() for file in files]
    course_files.check_walls(
        strongest, [path.parent, args.out, *submitted_files], course_file.terms.tools
    )
    for name in course_file.grid.schedulers:
        course_file.conditions.maker(name)
    if strongest is not Isolation.ALL:
        print(f"arena-lab: {sandboxes.weakness()}; {strongest.value}", file=sys.stderr)
    requested_export = export.export_of(
        args.export, args.students, path.parent, list(course_file.files)
    )
    program = program_of(args)
    with tables.alone_in(args.out):
        handed_in = hand_ins(args.out, course_file)
        secret = course_files.secret_in(args.out, args.secret, handed_in)
        sandbox = SandboxOptions(
            strongest,
            course_file.terms.tools,
            course_file.terms.has_proc,
            calls=course_file.terms.calls,
        )
        grading = GradingRun(
            course_file.conditions.text,
            path.parent,
            secret,
            program,
            sandbox,
            args.out,
            not args.no_repeat,
            forgets=args.drop_caches,
            export=requested_export,
        )
        return graded_in(grading, args.workers, handed_in)
