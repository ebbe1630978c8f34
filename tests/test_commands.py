"""What the command line declares is in its help, and in the tools that take memory,
files and streams away: each command, and each option with its default. docs/FORMATS.md
has no options; it sends to the help of the commands."""
import re
import unittest
from typing import Iterator, List, NamedTuple, Optional

from tests import TOP
from tests.hostile.commands import COMMANDS, SERVE

DECLARED = TOP / "crates" / "bhs_cli_words" / "src"
COMMAND = re.compile(r"^    (\w+)::COMMAND,$", re.MULTILINE)
ROW = re.compile(
    r"^pub\(crate\) const \w+: Argument = Argument \{\n(.*?)^\};",
    re.MULTILINE | re.DOTALL,
)
OPTION = re.compile(r'option: Some\("([\w-]+)"\)')
DEFAULT = re.compile(r'need: Need::Default\("([^"]*)"\)')


class Option(NamedTuple):
    """A command's option, with the word used if it is absent."""

    command: str
    name: str
    default: Optional[str]


def commands() -> List[str]:
    """The commands that the program declares."""
    return COMMAND.findall((DECLARED / "commands.rt").read_text(encoding="utf-8"))


def options() -> Iterator[Option]:
    """The options that its commands declare."""
    for command in commands():
        for row in ROW.findall(
            (DECLARED / "commands" / f"{command}.rt").read_text(encoding="utf-8")
        ):
            for name in OPTION.findall(row):
                default = DEFAULT.search(row)
                yield Option(command, name, default.group(1) if default else None)


def rows() -> str:
    """The rows of the command line, which the gate plays on the program."""
    return (TOP / "tests" / "program" / "command_lines.rows").read_text(
        encoding="utf-8"
    )


def help_of(command: str) -> str:
    """The short help of a command."""
    return rows().partition(f"\n$ {command} -h\n")[2].partition("\n\n")[0]


def formats() -> str:
    """What docs/FORMATS.md says of the program."""
    return (
        (TOP / "docs" / "FORMATS.md")
        .read_text(encoding="utf-8")
        .partition("\n## The program\n")[2]
    )


def is_tried(option: Option) -> bool:
    """Returns whether a hostile tool gives the option to its command."""
    if option.command == SERVE:
        tools = sorted((TOP / "tests" / "hostile").glob("*.py"))
        return any(
            f'"--{option.name}"' in tool.read_text(encoding="utf-8") for tool in tools
        )
    return any(
        command.words[0] == option.command and f"--{option.name}" in command.words
        for command in COMMANDS
    )


class Orders(unittest.TestCase):
    def test_each_order_is_tried(self) -> None:
        result = commands()
        self.assertGreater(len(result), 8)
        self.assertEqual(
            sorted({command.words[0] for command in COMMANDS} | {SERVE}), sorted(result)
        )

    def test_the_help_lists_the_orders(self) -> None:
        listing = rows().partition("\n< Commands:\n")[2].partition("\n<\n")[0]
        self.assertEqual(
            re.findall(r"^<   (\w+) ", listing, re.MULTILINE), [*commands(), "help"]
        )

    def test_the_page_of_formats_has_each_order_and_sends_to_its_help(self) -> None:
        self.assertEqual(
            sorted(re.findall(r"^\*\*`arena (\w+)`", formats(), re.MULTILINE)),
            sorted(commands()),
        )
        self.assertIn("`arena COMMAND --help`", formats())


class Options(unittest.TestCase):
    def setUp(self) -> None:
        self.declared = list(options())
        self.assertGreater(len(self.declared), 20)

    def test_the_help_of_its_command_has_each_option_with_its_default(self) -> None:
        for option in self.declared:
            with self.subTest(option):
                line = re.search(
                    rf"^<       --{option.name}( .*)?$",
                    help_of(option.command),
                    re.MULTILINE,
                )
                self.assertIsNotNone(line)
                if option.default is not None and line:
                    self.assertIn(f"[default: {option.default}]", line.group())

    def test_a_hostile_tool_tries_each_option(self) -> None:
        self.assertEqual(
            [option for option in self.declared if not is_tried(option)], []
        )
