"""What a hall says in German and French: each text is translated, and what Django reads
is made of the files."""
import os
import pathlib
import re
import shutil
import subprocess
import sys
import tempfile
import unittest
from typing import Set

from arena_lab.support.built import LAB

HALL = LAB / "hall"
LANGUAGES = ("de", "fr")
FILES = "locale/{}/LC_MESSAGES/django"
ENTRY = re.compile(r'^msgid "(.+)"\nmsgstr "(.*)"$', re.M)
NAMES = re.compile(r"%\(\w+\)s")


class Words(unittest.TestCase):
    def texts_to_translate(self) -> Set[str]:
        """Returns all texts of the hall that need a translation."""
        with tempfile.TemporaryDirectory() as name:
            folder = pathlib.Path(
                shutil.copytree(
                    HALL,
                    pathlib.Path(name) / "hall",
                    ignore=shutil.ignore_patterns("*.po", "*.mo", "__pycache__"),
                )
            )
            variables = {
                name: value
                for name, value in os.environ.items()
                if name != "DJANGO_SETTINGS_MODULE"
            }
            subprocess.run(
                [
                    sys.executable,
                    "-m",
                    "django",
                    "makemessages",
                    "-l",
                    "de",
                    "--no-wrap",
                    "--no-location",
                ],
                cwd=folder,
                env=variables,
                check=True,
                stdout=subprocess.DEVNULL,
            )
            text = (folder / f"{FILES.format('de')}.po").read_text(encoding="utf-8")
        return {result[0] for result in ENTRY.findall(text)}

    def test_each_text_is_translated(self) -> None:
        expectation = self.texts_to_translate()
        self.assertGreater(len(expectation), 80)
        for language in LANGUAGES:
            results = dict(
                ENTRY.findall(
                    (HALL / f"{FILES.format(language)}.po").read_text(encoding="utf-8")
                )
            )
            self.assertEqual(expectation - set(results), set(), language)
            self.assertEqual(set(results) - expectation, set(), language)
            for text, translated_value in results.items():
                with self.subTest(text, language=language):
                    self.assertTrue(translated_value)
                    self.assertEqual(
                        sorted(NAMES.findall(text)),
                        sorted(NAMES.findall(translated_value)),
                    )

    def test_what_django_reads_is_made_of_the_files(self) -> None:
        for language in LANGUAGES:
            path = HALL / FILES.format(language)
            with tempfile.NamedTemporaryFile() as made:
                subprocess.run(
                    ["msgfmt", "--check-format", "-o", made.name, f"{path}.po"],
                    check=True,
                )
                self.assertEqual(
                    pathlib.Path(made.name).read_bytes(),
                    pathlib.Path(f"{path}.mo").read_bytes(),
                )
