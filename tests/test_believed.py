"""The published count of what a reader must believe is that of the definitions as they
stand."""
import unittest

from tests import TOP
from tools.prove import believed

TRUST = TOP / "docs" / "TRUST.md"


class Believed(unittest.TestCase):
    def test_the_table_of_the_document_is_that_of_the_definitions(self) -> None:
        self.assertIn(
            believed.table(),
            TRUST.read_text(encoding="utf-8"),
            "put the table that tools/prove/believed.py prints into docs/TRUST.md",
        )

    def test_a_headline_reaches_what_it_uses_and_no_more(self) -> None:
        result = believed.reachable(("bhs_model", "Laws", "EqualPasts"))
        self.assertIn("answer", result["bhs_model", "Replying"])
        self.assertNotIn("EventsAdd", result["bhs_model", "Laws"])

    def test_names_of_a_module_inside_another_are_found(self) -> None:
        lines = [
            "module _ (a : ℕ) where",
            "  abbrev pub one : ℕ",
            "  one = a",
            "  pub data Two : Type 0 where",
            "    first : Two",
            "abbrev pub three : ℕ",
            "three = 3",
        ]
        self.assertEqual(
            [(name, len(block)) for name, block in believed.blocks(lines)],
            [("one", 3), ("Two", 3), ("three", 2)],
        )
