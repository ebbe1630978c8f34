"""Checks an agent before it is handed in: one command, for a program in any language.

    ./arena-lab check "python3 agent.py {host} {port} {key} {nodes}"
    ./arena-lab check "examples/agents/ring.py {nodes}"
    ./arena-lab check "examples/agents/wasm/ring.wasm:{nodes}" --for course.toml

AGENT is the words that start the program of one agent, with {host}, {port} and {key}.
Without {port} it is a file in Python that is written against `client.py`: it plays
inside the lab and is checked faster. FILE.wasm[:N,..] is a WebAssembly module.

The agent plays what the grader plays, drawn in the same way. --for names the file of
your course (`arena-lab grade --help`): its networks, home bases, ports, agents, quota,
whiteboards and schedulers. Without it two agents play on rings of 3 to 8 and 12 nodes,
unless you name others by --network, under a fair schedule and under one with slow
agents. Each match has a home base, a black hole, port numbers and keys of its own. Each
agent is repeated alone, as in a course, and refused lines are reported.

A program is kept waiting for an arrival, longer by the clock than a link takes in a
contest of the usual delays. Then 100 schedules are drawn and 40 are hunted on rings of
5, 6 and 8, half of them with the ports and the home base that the network has. Every
schedule is tried on a ring of 4 with all numberings of its ports, and on a ring of 5.
Under other networks the searches take the smallest that you name.

In the end one sentence says that the agent is right, and on what. Or the command says
what to mend first, one fact a line, and how to see it again; then the exit status is 1.
If other matches of the same kind show which assumption the agent makes, a line says it.

It takes at most 60 seconds of a processor where the program plays and 90 where the
Python model does, unless --seconds says otherwise. If that is short, it leaves out
first every schedule, then hunted schedules, then drawn ones but 24, and the last
sentence says so.
"""
import argparse
import contextlib
import json
import pathlib
import sys
from typing import Any, Dict

import arena_lab
from arena_lab.command_line.arguments import (
    add_engine,
    add_timeout,
    at_least_one,
    home,
    ports,
    program_of,
)
from arena_lab.course.check_steps import check_agent
from arena_lab.course.check_jobs import CheckJob, conditions_of
from arena_lab.play.agent_files import AgentError
from arena_lab.play.teams import INSIDE, OUTSIDE, agent_named
from arena_lab.rules.engines import MODEL
from arena_lab.support import fields
from arena_lab.sweep.grid import text_in

NETWORKS = ("ring:3", "ring:4", "ring:5", "ring:6", "ring:7", "ring:8", "ring:12")
# default conditions of hand-ins, with one match for two agents
DEFAULT_CONDITIONS = {"holes": 1, "schedulers": ["fair", "slow-agents"], "seeds": 1}
NOT_SAID = -1
FOLDER = pathlib.Path("out/check")
# how long it may take, where the program plays and where the Python model does
SECONDS = 60
MODEL_SECONDS = 90


def add_arguments(parser: argparse.ArgumentParser) -> None:
    """Adds the arguments of `check`."""
    parser.add_argument(
        "agent",
        metavar="AGENT",
        help="the words that start an agent's program, with {host}, {port}, "
        "{key}, and {nodes}, {links} and {home} if it is to know them; or FILE.py, or FILE.wasm[:N,..]",
    )
    parser.add_argument(
        "--for",
        metavar="FILE",
        dest="conditions",
        type=pathlib.Path,
        help="play what this file of a course says; its teams are passed over",
    )
    parser.add_argument(
        "--network",
        metavar="NAME",
        action="append",
        help=f"a network ({', '.join(NETWORKS)}, or those of the file)",
    )
    parser.add_argument(
        "--agents",
        metavar="N",
        type=at_least_one,
        help="how many agents there are (2, or as the file says)",
    )
    parser.add_argument(
        "--ports",
        metavar="given|drawn|shuffled:SEED",
        type=ports_word,
        help="the numbers of ports (drawn for each match, or as the file says)",
    )
    parser.add_argument(
        "--home",
        metavar="V|drawn",
        type=home,
        default=NOT_SAID,
        help="the home base (drawn for each match, or as the file says)",
    )
    add_limits(parser)
    parser.add_argument(
        "--no-repeat", action="store_true", help="do not repeat agents alone"
    )
    parser.add_argument(
        "--keep",
        metavar="FOLDER",
        type=pathlib.Path,
        default=FOLDER,
        help=f"write what shows the first thing to mend there ({FOLDER})",
    )
    parser.add_argument(
        "--json",
        action="store_true",
        help="print an object of JSON, with `right`, what is `said` and "
        "the folder that is `kept`, and what is done meanwhile on standard error",
    )
    add_engine(parser)


def ports_word(word: str) -> str:
    """A word that says how ports are numbered."""
    ports(word)
    return word


def add_limits(parser: argparse.ArgumentParser) -> None:
    """The options that say how long it may take."""
    add_timeout(parser)
    parser.add_argument(
        "--seconds",
        metavar="S",
        type=at_least_one,
        help=f"how long the check may take, of a processor ({SECONDS}, or {MODEL_SECONDS} by the Python model)",
    )


def run(args: argparse.Namespace) -> int:
    if args.agent.endswith(".toml"):
        raise AgentError(
            f"{args.agent}: that is no agent; of a tournament it is `arena check {args.agent}`"
        )
    job = job_of(args)
    with contextlib.redirect_stdout(
        sys.stderr
    ) if args.json else contextlib.nullcontext():
        right, wrong = check_agent(job)
        if wrong is not None:
            print(wrong.record.keep(args.keep)[-1])
    if args.json:
        print(
            json.dumps(
                {
                    "right": wrong is None,
                    "said": [right] if wrong is None else wrong.lines,
                    "kept": None if wrong is None else str(args.keep),
                }
            )
        )
        return int(wrong is not None)
    if wrong is None:
        print(right)
        return 0
    again = f"{arena_lab.command_name()} replay {args.keep}{'' if job.program else f' --engine {MODEL}'}"
    print("\n  ".join([f"To mend first: {wrong.lines[0]}", *wrong.lines[1:]]))
    print(
        f"See it again by `{again}`, and try a mended agent by `{again} --follow`"
        if wrong.is_repeatable
        else "A replay has no clock and does not show it: check again once it is mended"
    )
    return 1


def job_of(args: argparse.Namespace) -> CheckJob:
    """Returns the check that the arguments ask for."""
    agent = agent_named(OUTSIDE if "{port}" in args.agent else INSIDE, args.agent)
    program = program_of(args)
    path = args.conditions
    conditions: Dict[str, Any] = {"networks": list(NETWORKS), **DEFAULT_CONDITIONS}
    if path:
        try:
            conditions = fields.table_of(text_in(path))
        except fields.FileFormatError as fault:
            raise fields.FileFormatError(f"{path}: {fault}") from None
    conditions.update({"networks": args.network} if args.network else {})
    conditions.update({} if args.ports is None else {"ports": args.ports})
    if args.home is None:
        conditions.pop("home", None)
    elif args.home != NOT_SAID:
        conditions["home"] = args.home
    default = SECONDS if program else MODEL_SECONDS
    return CheckJob(
        agent,
        conditions_of(
            conditions, path.parent if path else pathlib.Path(), agent, args.agents
        ),
        args.limit,
        program,
        args.seconds or default,
        not args.no_repeat,
    )
