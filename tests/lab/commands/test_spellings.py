"""Old spellings of the lab's commands and options: they still work, and say the new
one."""
import argparse
import importlib.util
import sys
import unittest
from typing import Optional, Tuple
from unittest import mock

from arena_lab import command_name
from arena_lab.__main__ import COMMANDS, main, parser
from arena_lab.command_line.spellings import MODULES, SPELLINGS
from tests.support.output import run_call


PARSER = parser()


def read_words(*words: str) -> Tuple[argparse.Namespace, str]:
    """The words as they are read, and what is said on standard error."""
    result, _, output = run_call(PARSER.parse_args, words)
    return result, output


class Commands(unittest.TestCase):
    def refusal(self, *words: str) -> str:
        """What a command line that ends here says."""
        status, _, errors = run_call(main, list(words))
        self.assertEqual(status, 2)
        return str(errors)

    def test_an_old_command_is_the_new_one(self) -> None:
        for old, new, needs in (
            ("pages t.toml cup", "page", "by --out FOLDER"),
            ("again t.toml 3", "tournament --again", "required: --out"),
            (
                "repeat out --workers 0",
                "grade --repeat-only",
                "--workers: 0 is not a whole",
            ),
        ):
            first, *rest = self.refusal(*old.split()).splitlines()
            self.assertEqual(
                first, f"./arena-lab: {old.split()[0]} is called {new} now"
            )
            self.assertIn(f"arena-lab {new.split()[0]}: error: ", rest[-1])
            self.assertIn(needs, rest[-1])

    def test_what_tests_and_measures_the_lab_is_a_module(self) -> None:
        for old, module in MODULES.items():
            self.assertNotIn(old, COMMANDS)
            self.assertIsNotNone(importlib.util.find_spec(module))
            self.assertEqual(
                self.refusal(old),
                f"./arena-lab: in a clone, {old} is called /usr/bin/python3 -m "
                f"{module} now\n",
            )

    def test_what_does_not_belong_together_is_refused(self) -> None:
        for words, message in (
            ("page m0.jsonl --again again3", "name its TOURNAMENT"),
            ("page t.toml cup --out pages --twin 3", "have no --twin"),
            ("tournament --out cup", "or a match by --again"),
            (
                "tournament --again t.toml 3 --team red --out cup",
                "leave --team and --network out",
            ),
            ("grade course.toml", "by --out FOLDER"),
        ):
            self.assertIn(message, self.refusal(*words.split()))


def is_told(action: Optional[argparse.Action]) -> bool:
    """Returns whether the help tells of an option."""
    return action is not None and action.help != argparse.SUPPRESS


class Spellings(unittest.TestCase):
    def test_the_lab_is_called_by_the_command_that_was_installed(self) -> None:
        for word, name in (
            ("/usr/bin/arena-lab", "arena-lab"),
            ("/clone/arena_lab/__main__.py", "./arena-lab"),
        ):
            with mock.patch.object(sys, "argv", [word]):
                self.assertEqual(command_name(), name)

    def test_an_old_spelling_does_what_the_new_one_does(self) -> None:
        for command, old, value in (
            ("run", "--naps", "7"),
            ("run", "--limit", "3.5"),
            ("explore", "--by", "starved"),
            ("explore", "--hunt", "lost"),
            ("explore", "--states", "9"),
            ("hunt", "--for", "moves"),
            ("invariant", "--states", "5"),
        ):
            words = [command] if command != "invariant" else [command, "candidate.py"]
            new, silent = read_words(*words, SPELLINGS[old], value)
            result, output = read_words(*words, old, value)
            self.assertEqual((result, silent), (new, ""))
            self.assertEqual(
                output, f"./arena-lab {command}: {old} is called {SPELLINGS[old]} now\n"
            )

    def test_an_old_flag_takes_no_value(self) -> None:
        new, silent = read_words("hall", "--allow-weak-sandbox", "course.toml")
        result, output = read_words("hall", "--weak-walls", "course.toml")
        self.assertEqual((result, silent), (new, ""))
        self.assertIn("'allow_weak_sandbox': True", str(vars(result)))
        self.assertIn("--weak-walls is called --allow-weak-sandbox now", output)

    def test_a_value_is_refused_as_by_the_new_one(self) -> None:
        self.assertIn(
            "there is no nobody: There are", read_words("explore", "--by", "nobody")[1]
        )

    def test_the_help_has_the_new_ones_alone(self) -> None:
        commands = next(
            action for action in PARSER._actions if action.dest == "command"
        ).choices
        assert isinstance(commands, dict)
        for name, command in commands.items():
            # a command's own option may equal an old spelling
            own = command._option_string_actions
            for old in (
                spelling for spelling in SPELLINGS if not is_told(own.get(spelling))
            ):
                self.assertNotRegex(command.format_help(), rf"{old}(?![\w-])", name)
