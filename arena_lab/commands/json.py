"""Runs the program, and prints what comes of it as one line of JSON.

    ./arena-lab json [--program PATH] judge REPLAY ..
    ./arena-lab json [--program PATH] table TEAM=REPLAY ..
    ./arena-lab json [--program PATH] check TOURNAMENT
    ./arena-lab json [--program PATH] explore TOURNAMENT MATCH --module FILE[:N,..] ..
    ./arena-lab json [--program PATH] attest REPLAY --module FILE[:N,..] ..

The words behind the command are those of `arena`: `arena judge --help` has them. The
line has the exit status, the result, or null if there is none, the faults, and notes.
Its `origin` says which program found it (version, commit, proved or not), by which
words and defaults, and has the SHA-256 of the program and of each file that was read:
whoever has these gets the same line, and `arena-lab verify` gets it again and compares.
docs/results.schema.json is its JSON schema. What the program writes to standard error is
written there, too. The exit status is the program's; a command line that it refuses has
no JSON.

What the proved program prints is proved. The JSON is the lab's reading of that text,
and not proved: the reading is spelled again, and must give the text.
"""
import argparse

from arena_lab.command_line.arguments import add_program
from arena_lab.rules.certificates import WordsError, certify
from arena_lab.rules.engines import program_at
from arena_lab.rules.printed import READERS, line_of


def add_arguments(parser: argparse.ArgumentParser) -> None:
    add_program(parser)
    parser.add_argument(
        "order", metavar="COMMAND", choices=READERS, help=", ".join(READERS)
    )
    parser.add_argument(
        "words",
        metavar="WORDS",
        nargs=argparse.REMAINDER,
        help="the words of this command of `arena`",
    )


def run(args: argparse.Namespace) -> int:
    try:
        status, line = certify(program_at(args.program), [args.order, *args.words])
    except WordsError as fault:
        args.refuse(str(fault))
    if line:
        print(line_of(line))
    return status
