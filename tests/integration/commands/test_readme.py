"""The commands of arena_lab/README.md and docs/PROVING.md say what stands below
them."""
import re
import shlex
import sys
import textwrap
from typing import Iterator, List, Tuple

from arena_lab.__main__ import main
from arena_lab.rules.engines import TOP, name_of
from arena_lab.support import built
from tests.support.matches import InFolder, program
from tests.support.output import run_call

README = TOP / "arena_lab" / "README.md"
PAGES = (README, TOP / "docs" / "PROVING.md")
LAB = "$ ./arena-lab "
# commands that play nothing
NO_PROGRAM = ("network", "tournament", "invariant")


def examples() -> Iterator[Tuple[str, List[str]]]:
    """Yields each command of the pages with the output shown below it."""
    command = ""
    lines = []
    for line in (
        "\n".join(page.read_text(encoding="utf-8") for page in PAGES)
        .replace("\\\n", "")
        .splitlines()
    ):
        text = line.strip()
        if command and (not line.startswith("    ") or text.startswith("$")):
            yield command, lines
            command = ""
            lines = []
        if line.startswith("    ") and text.startswith(LAB):
            command = text[len(LAB) :]
            lines = []
        elif command:
            lines.append(text)


class Readme(InFolder):
    def test_each_command_says_what_stands_below_it(self) -> None:
        results = list(examples())
        self.assertGreater(len(results), 7)
        for command, result in results:
            with self.subTest(command):
                output = self.output(command)
                for line in result:
                    line = line.replace("out/", f"{self.folder}/").replace(
                        built.PROGRAM, name_of(program())
                    )
                    parts = [re.escape(part) for part in line.split("..")]
                    self.assertRegex(
                        output, re.compile("^" + ".*".join(parts) + "$", re.M)
                    )

    def test_the_adversary_is_the_one_of_the_examples(self) -> None:
        head = "    def writers_wait"
        block = (
            README.read_text(encoding="utf-8")
            .partition(head)[2]
            .partition("\n\nIt is a function")[0]
        )
        code = textwrap.dedent(head + block).strip()
        self.assertIn(
            code, (TOP / "examples" / "adversaries.py").read_text(encoding="utf-8")
        )

    def output(self, command: str) -> str:
        words = [
            word.replace("out/", f"{self.folder}/").replace(
                "python3 ", f"{sys.executable} "
            )
            for word in shlex.split(command)
        ]
        if words[0] == "hunt":
            words += ["--database", str(self.folder / "database")]
        if words[0] not in NO_PROGRAM:
            words += ["--program", program()]
        return str(run_call(main, words).output)
