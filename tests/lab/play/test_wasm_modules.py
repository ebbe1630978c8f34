"""What the lab says where the program refuses a module."""
import pathlib
import re
import unittest
from typing import Dict

from arena_lab.play.wasm_modules import ADVICE, with_advice

TOP = pathlib.Path(__file__).resolve().parents[3]
WASM = TOP / "examples" / "agents" / "wasm"
MEMORY_FILL = b"\xfc\x0b\x00"
MEMORY_COPY = b"\xfc\x0a\x00\x00"
FORMATS = (TOP / "docs" / "FORMATS.md").read_text(encoding="utf-8")


def in_formats() -> Dict[str, str]:
    """What to change by each fault, as the table of the faults of modules says."""
    table = FORMATS.partition("as `agent.wasm: float at byte 412`:")[2]
    rows = [
        row.strip("|").split(" | ")
        for row in table.partition("\nSo of valid")[0].splitlines()
        if row.startswith("| `")
    ]
    return {
        fault.removesuffix(" N"): last.strip()
        for first, _, last in rows
        for fault in re.findall(r"`([a-z A-Z]+)`", first)
    }


class Advice(unittest.TestCase):
    def test_it_is_that_of_the_formats(self) -> None:
        self.assertEqual(ADVICE, in_formats())

    def test_it_stands_behind_the_fault(self) -> None:
        for fault in ("run at byte 38", "run type at byte 38", "opcode 9 at byte 1"):
            with self.subTest(fault):
                word = fault.partition(" at")[0].removesuffix(" 9")
                text = f"/tmp/a b.wasm: {fault}"
                self.assertEqual(with_advice(text), f"{text}: {ADVICE[word]}")
        text = "a.wasm: import type arena.look at byte 21"
        self.assertEqual(with_advice(text), f"{text}: {ADVICE['import type']}")

    def test_other_faults_stay(self) -> None:
        for fault in ("a.wasm: memory", "cup.toml: run at byte 38", "no match 9"):
            self.assertEqual(with_advice(fault), fault)


class Samples(unittest.TestCase):
    def test_long_buffers_are_cleared_and_copied_by_one_instruction(self) -> None:
        """A loop over the bytes of a buffer takes most of the time of a search."""
        for instruction in (MEMORY_FILL, MEMORY_COPY):
            self.assertIn(instruction, (WASM / "chart.wasm").read_bytes())
        for name in ("chart.c", "careful.c"):
            self.assertIn("arena_clear(", (WASM / name).read_text(), name)

    def test_the_command_of_the_header_has_the_flags_of_the_makefile(self) -> None:
        command = re.search(
            r"clang ((?:.|\n)*?)\n \*\n", (WASM / "arena.h").read_text()
        )
        flags = re.search("^CFLAGS = (.*)$", (WASM / "Makefile").read_text(), re.M)
        assert command and flags
        self.assertEqual(
            {word for word in command[1].split() if word.startswith("-")} - {"-o"},
            {word for word in flags[1].split()} - {"-Wall", "-Wextra"},
        )


if __name__ == "__main__":
    unittest.main()
