"""How tools/prove/again.py compares two programs."""
import pathlib
import sys

from tests import needs
from tests.support.output import InTemporary, run_call
from tools.prove import again


@needs("readelf", "binutils")
class Compared(InTemporary):
    def setUp(self) -> None:
        super().setUp()
        self.one = self.folder / "one"
        self.other = self.folder / "other"
        self.bytes = pathlib.Path(sys.executable).resolve().read_bytes()
        self.one.write_bytes(self.bytes)

    def comparison(self) -> str:
        status, output, _ = run_call(again.compare_programs, self.one, self.other)
        self.assertEqual(status, 0 if "the same program" in output else 1)
        return output

    def test_equal_programs(self) -> None:
        self.other.write_bytes(self.bytes)
        self.assertIn("the same program, SHA-256 ", self.comparison())

    def test_the_sections_that_differ_are_named(self) -> None:
        text = again.sections(self.one)[".text"]
        changes = bytes([text[0] ^ 1]) + text[1:]
        self.other.write_bytes(self.bytes.replace(text, changes, 1))
        self.assertEqual(self.comparison(), "they differ in .text\n")

    def test_a_difference_between_sections(self) -> None:
        self.other.write_bytes(self.bytes + b"\0")
        self.assertIn("no section", self.comparison())
