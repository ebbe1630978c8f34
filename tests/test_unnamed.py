"""Nothing stands in the repository that nothing names, but for what is known."""
import unittest
import unittest.mock

from tests import needs
from tests.support.output import InTemporary, write
from tools.prove import unnamed

LEMMAS = """use Rattle.a.specs.B.{C}
-- never_used is in a comment
used : C → C
used c = c

uses : C → C
uses c = used c

never_used : C → C
never_used c = never_used c

a_row : C
a_row = c

abbrev pub Named : Type 0
Named = C
"""
IMPORTS = """use Rattle.one.proofs.Lemmas.{uses, Named as Other}
f : Other
f = uses
"""


@needs("git", "git")
class Unnamed(InTemporary):
    def test_what_is_unnamed_is_known(self) -> None:
        result = unnamed.unnamed_names()
        facts = unnamed.known_rows()
        self.assertEqual(
            [row for row in result if row not in facts], [], "delete it, or name it"
        )
        self.assertEqual(
            [row for row in facts if row not in result],
            [],
            "delete the row of tools/prove/known_unnamed",
        )

    def test_a_lemma_that_only_its_own_lines_name_is_found(self) -> None:
        file = self.folder / "one" / "proofs" / "Lemmas.antt"
        second = self.folder / "two" / "proofs" / "Other.antt"
        for path, text in ((file, LEMMAS), (second, IMPORTS)):
            write(path, text)
        with unittest.mock.patch.object(unnamed, "CRATES", self.folder):
            self.assertEqual(
                list(unnamed.definitions(file)), ["uses", "never_used", "Named"]
            )
            self.assertEqual(
                set(unnamed.named_in(second)),
                {("one.proofs.Lemmas", "uses"), ("one.proofs.Lemmas", "Named")},
            )

    def test_a_definition_that_another_crate_has_under_another_name_is_found(
        self,
    ) -> None:
        for crate, name in (("one", "f"), ("two", "g"), ("three", "short")):
            text = f"-- {crate}\n{name} : ℕ → ℕ\n{name} n = {name} (n + 1" + " + 1" * (
                3 if name == "short" else 60
            )
            write(
                self.folder / "crates" / crate / "proofs" / "Lemmas.antt", f"{text})\n"
            )
        with unittest.mock.patch.multiple(
            unnamed, CRATES=self.folder / "crates", TOP=self.folder
        ):
            self.assertEqual(
                list(unnamed.twice()),
                ["crates/one/proofs/Lemmas.antt f = crates/two/proofs/Lemmas.antt g"],
            )
