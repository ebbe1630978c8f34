"""The version of the project stands in the file VERSION; what says it elsewhere says
the same."""
import re
import unittest

from tests import TOP
from tools.prove import version

VERSION = (TOP / "VERSION").read_text().strip()


class Versions(unittest.TestCase):
    def test_the_program_has_it(self) -> None:
        source = (TOP / "crates" / "bhs_cli_words" / "src" / "declared.rt").read_text()
        self.assertEqual(
            re.findall(r'const VERSION: &str = "(.*)";', source), [VERSION]
        )

    def test_the_newest_changes_have_it(self) -> None:
        headings = re.findall(r"^## (\S+)", (TOP / "CHANGELOG.md").read_text(), re.M)
        release = [heading for heading in headings if heading != "Unreleased"]
        self.assertEqual(release[0].rstrip(","), VERSION)
        self.assertRegex(VERSION, r"^\d+\.\d+\.\d+$")
        self.assertEqual(version.version(), VERSION)

    def test_who_cites_it_names_it(self) -> None:
        cited_value = re.findall(
            r"^version: (\S+)$", (TOP / "CITATION.cff").read_text(), re.M
        )
        self.assertEqual(cited_value, [VERSION])
        noted_value = re.findall(
            r"Version (\S+)}", (TOP / "docs" / "PROTOCOLS.md").read_text()
        )
        self.assertEqual(noted_value, [VERSION])
