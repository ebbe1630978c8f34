"""Old spellings of commands and options: they still work for a release, and say what is
called so now."""
import argparse
import sys
from typing import Any, Dict, List

SPELLINGS = {
    "--by": "--scheduler",
    "--for": "--objective",
    "--hunt": "--objective",
    "--limit": "--timeout",
    "--naps": "--spurious-wakeups",
    "--states": "--max-states",
    "--weak-walls": "--allow-weak-sandbox",
}
COMMANDS = {
    "pages": ["page"],
    "again": ["tournament", "--again"],
    "repeat": ["grade", "--repeat-only"],
}
# commands of old that are modules of a clone
MODULES = {
    "endure": "tests.integration.endure",
    "mutants": "tests.support.mutants",
    "speed": "bench.speed",
}


def command_of_today(lab: str, line: List[str]) -> List[str]:
    """A command line with the command of today. If it has an old one, the new one is
    named on standard error."""
    old = line[0] if line else ""
    if old in MODULES:
        print(
            f"{lab}: in a clone, {old} is called /usr/bin/python3 -m {MODULES[old]} now",
            file=sys.stderr,
        )
        sys.exit(2)
    if old in COMMANDS:
        print(f"{lab}: {old} is called {' '.join(COMMANDS[old])} now", file=sys.stderr)
    return [*COMMANDS.get(old, line[:1]), *line[1:]]


class OldSpelling(argparse.Action):
    """Does what the option of the new spelling does, and names it on standard error."""

    def __call__(
        self,
        parser: argparse.ArgumentParser,
        namespace: argparse.Namespace,
        values: Any,
        option_string: str | None = None,
    ) -> None:
        print(
            f"{parser.prog}: {option_string} is called {SPELLINGS[str(option_string)]} now",
            file=sys.stderr,
        )
        setattr(namespace, self.dest, self.const if self.nargs == 0 else values)


def take_old_spellings(parser: argparse.ArgumentParser) -> None:
    """Makes a command accept old spellings of its options; its help text hides them."""
    options = dict(parser._option_string_actions)
    for old, new in SPELLINGS.items():
        if new in options and old not in options:
            option = options[new]
            flag: Dict[str, Any] = (
                {"nargs": 0, "const": option.const} if option.nargs == 0 else {}
            )
            parser.add_argument(
                old,
                action=OldSpelling,
                dest=option.dest,
                type=option.type or str,
                choices=option.choices,
                default=argparse.SUPPRESS,
                help=argparse.SUPPRESS,
                **flag,
            )
