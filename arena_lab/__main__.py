"""The lab's command line: `./arena-lab --help`."""
import argparse
import difflib
import functools
import importlib
import os
import pathlib
import signal
import sys
from typing import Any, Collection, List, NamedTuple, Optional, Tuple

import arena_lab
from arena_lab import IN_CLONE
from arena_lab.command_line import spellings, statuses
from arena_lab.rules import refusals
from arena_lab.rules.engines import EngineRefusedError
from arena_lab.support.faults import ArenaError
from arena_lab.support.missing import MissingPackageError, missing_of
from arena_lab.support.signals import TerminatedError, come_again, end

# modules of Debian's packages: to play agents inside the lab, to lay out pages
PLAYS = ("greenlet", "tqdm")
PAGES = ("jinja2", "networkx", "numpy", "scipy")


class Command(NamedTuple):
    """A command: what it does in a line, and the modules that it needs of Debian's
    packages."""

    about: str
    needs: Tuple[str, ...] = PLAYS


# command name -> Command; the module `arena_lab.commands.NAME` has `add_arguments` and
# `run`
COMMANDS = {
    "new": Command("begin an agent in one of seven languages or as a module", ()),
    "try": Command(
        "write an agent in your browser, on a page that this machine serves",
        PLAYS + PAGES + ("django", "rest_framework", "waitress", "whitenoise"),
    ),
    "exercise": Command("learn to write agents, one exercise after the other"),
    "examples": Command("say where the examples stand, or copy them", ()),
    "play": Command(
        "be the agents yourself, in the terminal or on a page", PAGES + ("aiohttp",)
    ),
    "run": Command("play a team under schedules of a scheduler", PLAYS + PAGES),
    "check": Command(
        "check an agent before it is handed in", PLAYS + PAGES + ("hypothesis",)
    ),
    "hunt": Command(
        "look for a schedule after which the team fails, or moves most",
        PLAYS + PAGES + ("hypothesis",),
    ),
    "explore": Command("try every schedule of a small network", PLAYS + PAGES),
    "adversary": Command(
        "make two agents on a ring move as much as every team must", PLAYS + PAGES
    ),
    "invariant": Command(
        "try a candidate invariant on every configuration of small networks",
        PLAYS + PAGES,
    ),
    "replay": Command("play a schedule again, and compare every byte", PLAYS + PAGES),
    "serve": Command(
        "a stand-in for `arena serve`, to try agents without building the program", ()
    ),
    "network": Command("write a network file, or a page to see it", ("networkx",)),
    "tournament": Command(
        "write a tournament of teams, networks and black holes, or another try of a match",
        ("networkx",),
    ),
    "sweep": Command(
        "play teams over a grid of networks and schedules, and write a report",
        PLAYS + PAGES + ("matplotlib",),
    ),
    "grade": Command(
        "grade the programs of a course, or repeat a graded course once more",
        PLAYS + PAGES,
    ),
    "hall": Command(
        "serve a hall, where teams practise, try again, and are ranked for a term",
        PLAYS + PAGES + ("django", "rest_framework", "waitress", "whitenoise"),
    ),
    "json": Command(
        "print what `arena judge`, `table`, `check`, `explore` or `attest` finds as JSON",
        (),
    ),
    "verify": Command(
        "get again what a line of `json` says, and tell what differs", ()
    ),
    "page": Command(
        "write a page of a match that has ended, or of each match of a contest", PAGES
    ),
    "watch": Command(
        "show a contest that goes on, for a projector", PAGES + ("aiohttp",)
    ),
}


class Words(argparse.ArgumentParser):
    """Reads the words of a command line, and names the likeliest right word in the
    place of a wrong one."""

    def _check_value(self, action: argparse.Action, value: Any) -> None:
        choices = list(map(str, action.choices or [value]))
        if str(value) in choices:
            return
        likely = difflib.get_close_matches(str(value), choices, 1)
        question = f"did you mean {likely[0]}? " if likely else ""
        raise argparse.ArgumentError(
            action, f"there is no {value}: {question}There are {', '.join(choices)}"
        )


# advice for each fault of a file or a folder
ADVICE = {
    PermissionError: ": name a place where you may read and write",
    IsADirectoryError: ": name a file in it",
    NotADirectoryError: ": a part of its name is a file; name another place",
    FileExistsError: ": name another place",
}

ABOUT = """Plays agents under a schedule that you choose, records it, and plays it again byte for byte.

Agents are asynchronous: a protocol is right only if it works however links delay them. The arena's own contests show
the schedule that the clock happens to make; the lab shows the others. `./arena-lab COMMAND --help` says more of each
command, and arena_lab/README.md is a tutorial."""


def parser(
    name_of_lab: str = IN_CLONE, names: Collection[str] = tuple(COMMANDS)
) -> argparse.ArgumentParser:
    """Reads the command line of the lab under this name. Only the commands that are
    called have their words: each imports its own part of the lab."""
    lab_parser = Words(
        name_of_lab,
        description=ABOUT.replace(IN_CLONE, name_of_lab),
        epilog=statuses.exit_statuses(),
        formatter_class=argparse.RawDescriptionHelpFormatter,
    )
    commands = lab_parser.add_subparsers(
        required=True, metavar="COMMAND", dest="command"
    )
    for name, command in COMMANDS.items():
        if name not in names:
            commands.add_parser(name, help=command.about)
            continue
        module = importlib.import_module(f"arena_lab.commands.{name}")
        about = (module.__doc__ or "").replace(IN_CLONE, name_of_lab)
        words = commands.add_parser(
            name,
            help=command.about,
            description=about,
            epilog=statuses.exit_statuses(name),
            formatter_class=argparse.RawDescriptionHelpFormatter,
        )
        module.add_arguments(words)
        spellings.take_old_spellings(words)
        call_by(name_of_lab, words)
        words.set_defaults(run=module.run, refuse=words.error, needs=command.needs)
    return lab_parser


def call_by(name: str, words: argparse.ArgumentParser) -> None:
    """Has the help of a command call the lab by this name."""
    for action in words._actions:
        action.help = action.help and action.help.replace(IN_CLONE, name)
    for group in words._action_groups:
        group.description = group.description and group.description.replace(
            IN_CLONE, name
        )


def main(argv: Optional[List[str]] = None) -> int:
    name = arena_lab.command_name()
    line = spellings.command_of_today(name, sys.argv[1:] if argv is None else argv)
    words, strange = parser(name, line[:1]).parse_known_args(line)
    if strange:
        # argparse would print the usage of the lab here, and this prints that of the
        # command
        has_braces = any("{" in word for word in strange)
        advice = ': put all words of an agent in quotes, as "agent.py {nodes}"'
        words.refuse(
            f"unrecognized arguments: {' '.join(strange)}{advice if has_braces else ''}"
        )
    # whoever ends the lab ends what it started
    sys.unraisablehook = come_again
    signal.signal(signal.SIGTERM, functools.partial(end, os.getpid()))
    if signal.getsignal(signal.SIGINT) is signal.default_int_handler:
        signal.signal(signal.SIGINT, functools.partial(end, os.getpid()))
    try:
        return int(words.run(words))
    except TerminatedError:
        return 143
    except KeyboardInterrupt:
        print("arena-lab: interrupted", file=sys.stderr)
        return 130
    except BrokenPipeError:
        # the reader of our output has closed it
        os.dup2(os.open(os.devnull, os.O_WRONLY), sys.stdout.fileno())
        return 2
    except (ArenaError, OSError) as fault:
        text = fault_text(fault, COMMANDS[words.command])
        print(
            text if isinstance(fault, EngineRefusedError) else f"arena-lab: {text}",
            file=sys.stderr,
        )
        return fault.status if isinstance(fault, ArenaError) else 2


def fault_text(fault: Exception, command: Command) -> str:
    """Returns the text for an exception that ends a command."""
    if isinstance(fault, EngineRefusedError):
        return refusals.in_words(str(fault))
    if isinstance(fault, MissingPackageError):
        # all that the command will ask for: who installs them once is not sent back
        return str(MissingPackageError([*fault.modules, *missing_of(command.needs)]))
    if isinstance(fault, OSError) and fault.filename is not None and fault.strerror:
        return f"{os.fsdecode(fault.filename)}: {path_advice(fault)}"
    return str(fault)


def path_advice(fault: OSError) -> str:
    """Says what to change where a file or a folder cannot be read or written."""
    folder = pathlib.Path(os.fsdecode(fault.filename)).parent
    if isinstance(fault, FileNotFoundError) and not folder.is_dir():
        return f"there is no folder {folder}: make it first, or name another"
    if isinstance(fault, FileNotFoundError):
        return "there is no such file or folder"
    reason = str(fault.strerror).lower()
    return f"{reason}{ADVICE.get(type(fault), '')}"


if __name__ == "__main__":
    arena_lab.with_one_order()
    sys.exit(main())
