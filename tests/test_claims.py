"""What the documents and the help say is what the code does: each fault that it tells
stands in FORMATS and in the help of the commands that tell it, and each library's name
in the documents is public."""
import re
import unittest
from typing import Dict, List, Set, Tuple

from tests import TOP
from tests.test_documents import documents

CRATES = TOP / "crates"
HELP = CRATES / "bhs_cli_words" / "src" / "help"
FORMATS = (TOP / "docs" / "FORMATS.md").read_text(encoding="utf-8")
FAULT = re.compile(
    r'#\[error\("([^"]+)"\)\]|^ +FileFault::.*?f(?:\.write_str\(|, )"(?:match \{game\} )?([^"]+)"',
    re.M,
)
# what the machine lacks, for which each help has an exit status
OF_MACHINES = {"memory", "read", "write", "turns", "text"}
READ_REPLAYS = ("judge", "table", "explain", "twin", "recover")
READ_TOURNAMENTS = (
    "check",
    "serve",
    "rehearse",
    "explore",
    "judge",
    "table",
    "recover",
)
OF_REPLAYS = "bhs_replay/src/faults.rt"
OF_APPEALS = "bhs_cli/src/reporting/appeal_faults.rt"
OF_FILES, OF_NETWORKS, OF_SETUPS = (
    f"{crate}/src/faults.rt" for crate in ("bhs_files", "bhs_net", "bhs_world")
)
OF_COMMANDS = "bhs_cli/src/reporting/faults.rt"
# the first word of each of the faults of commands, and who tells it
TELLS = {
    "no": ("judge", "explore"),
    "listen": ("serve",),
    "busy": ("serve", "recover"),
    "threads": ("serve",),
    "unsettled": ("serve",),
    "line": ("judge",),
    "[A-Z]+": ("explore",),
}
# the files that have faults, and the commands that tell them
SOURCES: Dict[str, Tuple[str, ...]] = {
    OF_REPLAYS: READ_REPLAYS,
    OF_APPEALS: ("judge", "recover"),
    "bhs_view/src/twins.rt": ("twin",),
    "bhs_wasm_read/src/faults.rt": ("explore",),
    OF_FILES: READ_TOURNAMENTS,
    OF_NETWORKS: READ_TOURNAMENTS,
    OF_SETUPS: READ_TOURNAMENTS,
    OF_COMMANDS: ("serve", "explore", "judge", "recover"),
}
# whose help sends one to the help of another command
LIKE = {
    ("recover", OF_APPEALS): "judge",
    **{
        (name, source): "check"
        for name in READ_TOURNAMENTS[1:]
        for source in (OF_FILES, OF_NETWORKS, OF_SETUPS)
    },
}
# an item of a library, as documents name it
NAMED = re.compile(r"`(bhs_\w+)::((?:\w+::)*)(\w+)`")
CHANGED = "\n## Names that have changed\n"
PUBLIC = r"(?m)^\s*pub (?:const )?(?:fn|struct|enum|trait|type|const|mod) {0}\b|^\s*pub use [^;]*\b{0}\b[^;]*;"


def faults_of(source: str) -> List[str]:
    """The texts of a file's faults as documents spell them: a capital letter stands for
    a number or a name."""
    outcome_found = FAULT.findall((CRATES / source).read_text(encoding="utf-8"))
    texts = (
        {first or second for first, second in outcome_found}
        - {"{0}", "{fault}"}
        - OF_MACHINES
    )
    return [
        re.sub(r"\\\{\w*\\\}", r"[A-Z]+", re.escape(text)) for text in sorted(texts)
    ]


def help_of(command: str) -> str:
    """The long help of a command, each paragraph on one line."""
    return " ".join((HELP / f"{command}.rt").read_text(encoding="utf-8").split())


class Faults(unittest.TestCase):
    def test_formats_has_each(self) -> None:
        for source in SOURCES:
            for fault in faults_of(source):
                with self.subTest(source, fault=fault):
                    self.assertRegex(FORMATS, rf"`(match M )?{fault}`")

    def test_the_help_of_each_command_that_tells_it_has_each(self) -> None:
        """Or it says which command's help has them. Of a replay's faults it may name
        the kinds alone."""
        for source, commands in SOURCES.items():
            for command in commands:
                output = LIKE.get((command, source), "")
                text = help_of(output or command)
                self.assertIn(f"`arena {output}" if output else "", help_of(command))
                message = (
                    fault
                    for fault in faults_of(source)
                    if source != OF_COMMANDS
                    or command in TELLS[fault.replace("\\", "").partition(" ")[0]]
                )
                for fault in message:
                    with self.subTest(command, fault=fault):
                        kind = (
                            fault.partition(" ")[0].rstrip("\\")
                            if source == OF_REPLAYS
                            else fault
                        )
                        self.assertRegex(text, rf"\b{kind}(?!\w)")


class Names(unittest.TestCase):
    def test_each_item_that_a_document_names_is_public(self) -> None:
        """Names of the past stand in the first column of their table."""
        names: Set[Tuple[str, str]] = set()
        for path in documents():
            text, head, changes = path.read_text(encoding="utf-8").partition(CHANGED)
            changes = re.sub(r"(?m)^\| .*? \|", "", changes)
            names |= {
                (crate, name)
                for crate, _, name in NAMED.findall(f"{text}{head}{changes}")
            }
        self.assertGreater(len(names), 80)
        hidden = []
        for crate, name in sorted(names):
            text = "".join(
                path.read_text(encoding="utf-8")
                for path in sorted((CRATES / crate / "src").rglob("*.rt"))
            )
            if not re.search(PUBLIC.format(name), text) and not re.search(
                rf"(?m)^    fn {name}\b", text
            ):
                hidden.append(f"{crate}::{name}")
        self.assertEqual(hidden, [])
