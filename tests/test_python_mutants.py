"""Mistakes that tests of the lab must find, and where they are put."""
import unittest

from tests import TOP
from tests.runners.python_mutants import MODEL, MUTANTS, Mutant


class Places(unittest.TestCase):
    def test_the_text_of_each_mutant_stands_once_in_its_file(self) -> None:
        for mutant in MUTANTS:
            with self.subTest(mutant.file, before=mutant.before):
                text = (TOP / mutant.file).read_text(encoding="utf-8")
                self.assertEqual(len(mutant.places(text)), 1)

    def test_a_text_is_found_however_its_lines_are_broken(self) -> None:
        mutant = Mutant("a.py", "f(a, not b)", "f(a, b)", MODEL)
        results = [
            len(mutant.places(it))
            for it in ("f(a, not b)", "f(\n    a, not b)", "f(a, b)")
        ]
        self.assertEqual(results, [1, 1, 0])
