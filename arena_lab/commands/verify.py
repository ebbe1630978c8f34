"""Repeats what certificates say, from the files that they name, and tells what differs.

    ./arena-lab verify [--program PATH] CERTIFICATE ..

A certificate is a file with a line of `arena-lab json`, such as

    ./arena-lab json explore cup.toml 0 --module chart.wasm:2,0 > explored.json
    ./arena-lab json attest cup0.jsonl --module chart.wasm:2,0 > attested.json
    ./arena-lab verify explored.json attested.json

Go to the folder where it was made, or to one with the same files under the same names.
A file with another SHA-256 is told, and nothing is run. Else the command is run again,
by the program that is here. Of a search of all schedules and an attested replay, in this
order, it also says whether the bounds of the search hold of the replay: they do by a
theorem if both are of one match, with the same modules, arguments and spurious wake-ups,
and if nobody arrived over a held link.
"""
import argparse
from typing import List

from arena_lab.command_line.arguments import add_program
from arena_lab.rules.certificates import (
    PremiseError,
    bounds_of,
    certify,
    changed_files,
    differences,
    program_text,
    read_certificate,
)
from arena_lab.rules.engines import program_at
from arena_lab.rules.model import Object

DIFFERS = 1


def add_arguments(parser: argparse.ArgumentParser) -> None:
    add_program(parser)
    parser.add_argument(
        "certificates",
        metavar="CERTIFICATE",
        nargs="+",
        help="a file with a line of `arena-lab json`",
    )


def run(args: argparse.Namespace) -> int:
    program = program_at(args.program)
    certificates = [read_certificate(path) for path in args.certificates]
    faults = [
        fault
        for path, certificate in zip(args.certificates, certificates)
        for fault in verify(path, certificate, program)
    ]
    for fault in faults:
        print(fault)
    if faults:
        return DIFFERS
    if [certificate["command"] for certificate in certificates] == [
        "explore",
        "attest",
    ]:
        return print_bounds(*certificates)
    return 0


def verify(path: str, certificate: Object, program: str) -> List[str]:
    """Runs the command of a certificate again, and returns what differs."""
    faults = list(changed_files(certificate))
    if not faults:
        _, again = certify(program, certificate["words"])
        faults = list(differences(certificate, again))
        if not faults and again:
            print(f"{path}: the same result by {program_text(again['origin'])}")
    return [f"{path}: {fault}" for fault in faults]


def print_bounds(search: Object, attestation: Object) -> int:
    """Prints what a search of all schedules says of a replay."""
    try:
        bounds = bounds_of(search, attestation)
    except PremiseError as fault:
        print(f"the bounds of the search do not follow: {fault}")
        return DIFFERS
    limits = f"at most {bounds.moves} moves, and at most {bounds.lost} agents lost"
    if bounds.is_finished:
        print(f"so the replay's match is solved, with {limits}")
    else:
        print(
            f"so no accusation in the replay is wrong, with {limits}; some agents had not ended"
        )
    return 0
