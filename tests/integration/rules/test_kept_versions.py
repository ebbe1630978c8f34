"""What earlier versions wrote is read, judged and played as it was, and what Python
programs call is there still: a folder of tests/kept for each version that was
released. (The data base of an earlier hall: tests/integration/hall/test_upgrade.py.)"""
import inspect
import json
import os
import pathlib
import re
import subprocess
from typing import List

from arena_lab import api
from arena_lab.play import kept_matches, schedules
from arena_lab.support.built import TOP
from tests.support.matches import program
from tests.support.output import InTemporary

VERSIONS = sorted((TOP / "tests" / "kept").iterdir())


class Kept(InTemporary):
    def setUp(self) -> None:
        super().setUp()
        self.addCleanup(os.chdir, os.getcwd())
        os.chdir(TOP)

    def output(self, folder: pathlib.Path, *words: str) -> str:
        """What the program prints for these words, in a folder."""
        result = subprocess.run(
            [program(), *words], cwd=folder, capture_output=True, text=True
        )
        self.assertEqual(result.returncode, 0, result.stderr)
        return result.stdout

    def test_each_released_version_is_kept(self) -> None:
        headings = re.findall(r"^## (\d\S+),", (TOP / "CHANGELOG.md").read_text(), re.M)
        self.assertEqual(sorted(headings), [version.name for version in VERSIONS])

    def test_a_contest_is_judged_by_its_turns(self) -> None:
        for folder in VERSIONS:
            with self.subTest(folder.name):
                appeal = [
                    "--turns",
                    "appeal0.turns",
                    "--tournament",
                    "appeal.toml",
                    "--match",
                    "0",
                ]
                output = self.output(folder, "judge", "appeal0.jsonl", *appeal)
                self.assertEqual(output, self.output(folder, "judge", "appeal0.jsonl"))
                self.assertRegex(output, r"^solved moves \d+ lost \d\n$")
                self.assertIn("match", self.output(folder, "check", "appeal.toml"))

    def test_a_kept_run_is_played_again(self) -> None:
        for folder in VERSIONS:
            with self.subTest(folder.name):
                run = folder / "run"
                schedule = schedules.read_schedule(run / "schedule.txt")
                for engine in (None, program()):
                    again = kept_matches.played_again(schedule, engine)
                    self.assertEqual(again.replay, (run / "match0.jsonl").read_bytes())

    def test_python_programs_find_what_they_call(self) -> None:
        for folder in VERSIONS:
            kept_folder = json.loads((folder / "api.json").read_text())
            for name, parts in kept_folder.items():
                with self.subTest(version=folder.name, name=name):
                    self.assertIn(name, api.__all__)
                    self.assertEqual(missing(getattr(api, name), parts), [])


def missing(result: object, parts: List[str]) -> List[str]:
    """Returns the missing parameters of a function, or missing members of a class."""
    if inspect.isfunction(result):
        there = {*inspect.signature(result).parameters}
        return [part for part in parts if part not in there]
    return [part for part in parts if not hasattr(result, part)]
