"""Runs the commands of the lessons in their order, and compares what they do with the
page."""
import os
import re
import shlex
import subprocess
import sys
from typing import List

from arena_lab.course import exercises
from arena_lab.rules.engines import TOP
from tests.support.output import InTemporary

LESSONS = TOP / "examples" / "lessons" / "README.md"
COMMAND = re.compile(r" {7}(./arena-lab .*)")
EXERCISE = "9-every-schedule"


def commands(lesson: str) -> List[List[str]]:
    """The commands of a lesson, which is named by the head of its section."""
    text = LESSONS.read_text(encoding="utf-8")
    section = text.partition(f"\n## {lesson}\n")[2].partition("\n## ")[0]
    return [shlex.split(it) for it in COMMAND.findall(section)]


class TestLessons(InTemporary):
    def setUp(self) -> None:
        super().setUp()
        for name in ("examples", "arena_lab"):
            (self.folder / name).symlink_to(TOP / name)

    def output(self, words: List[str]) -> str:
        result = subprocess.run(
            [sys.executable, "-m", "arena_lab", *words[1:]],
            cwd=self.folder,
            input="enter\nwait\n",
            text=True,
            stdout=subprocess.PIPE,
            stderr=subprocess.STDOUT,
            timeout=300,
            env={**os.environ, "PYTHONPATH": str(TOP)},
        )
        self.assertIn(result.returncode, (0, 1), result.stdout)
        return result.stdout

    def test_by_hand(self) -> None:
        result = commands("1 By hand")
        self.assertEqual(4, len(result))
        for words in result:
            with self.subTest(words):
                request = [word for word in words if word != "--page"]
                self.assertIn("The match is over", self.output(request))

    def test_a_ring(self) -> None:
        begin, run, hunt, explore = commands("2 A ring")
        self.assertIn(f"Complete {EXERCISE}/agent.py", self.output(begin))
        self.assertIn("; failed 4\n", self.output(run))
        self.assertRegex(self.output(hunt), r"the team fails, first under number \d+\n")
        agent = self.folder / EXERCISE / exercises.AGENT
        agent.write_text(exercises.read_exercise(EXERCISE).solution(), encoding="utf-8")
        self.assertIn("50 schedules: solved 50; failed 0", self.output(run))
        self.assertIn("no schedule fails", self.output(explore))

    def test_fewer_moves(self) -> None:
        two, halves, wrong = commands("3 Fewer moves")
        for words in (two, halves):
            with self.subTest(words):
                self.assertIn("solve", self.output(words))
        self.assertIn("silent", self.output(wrong))
