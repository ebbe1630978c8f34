"""Answers to the exercises: each right one is called right, and each wrong one is not,
by the lab and by the page on which one writes agents."""
import json
import re
import shutil
import subprocess
import unittest
from typing import Any, Dict, List

from arena_lab.course import exercises
from arena_lab.course.exercises import Exercise
from arena_lab.play.games import Record
from arena_lab.support.built import TOP
from tests.support import exercise_answers
from tools.play import folder

PAGE = TOP / "tools" / "play"
CONSTANTS = folder.constants(KITS=folder.kits(), EXERCISE_TEXTS=folder.exercise_texts())
# reads the checks of the page, and prints what each says of the matches of its exercise
CHECKS = """
const fs = require("fs");
const text = process.argv.slice(1).map((path) => fs.readFileSync(path, "utf8")).join("\\n");
const [constants, asked] = JSON.parse(fs.readFileSync(0, "utf8"));
const all = new Function(`${constants}${text}; return EXERCISES`)();
const rows = all.map(({ name, title, matches, agents }) => ({ name, title, matches, agents }));
const found = asked.map(([name, matches]) => {
  const { check, checkAll = () => [] } = all.find((one) => one.name === name);
  return [...matches.map((match) => check(match)), checkAll(matches)];
});
console.log(JSON.stringify([rows, found]));
"""


def ask_page(requests: List[Any]) -> Any:
    """Returns the page's exercises, and what its checks say of matches of exercises."""
    paths = [str(PAGE / name) for name in ("networks.js", "exercises.js")]
    output = subprocess.run(
        ["node", "-e", CHECKS, *paths],
        input=json.dumps([CONSTANTS, requests]),
        check=True,
        text=True,
        stdout=subprocess.PIPE,
    )
    return json.loads(output.stdout)


def as_page(record: Record) -> Dict[str, Any]:
    """A match as the page hands it to a check."""
    match = record.match.match
    setup = match.setup
    return {
        "events": match.log,
        "network": {"nodes": setup.nodes, "links": setup.links},
        "match": {
            "home": setup.home,
            "holes": setup.holes,
            "dark": setup.dark,
            "agents": setup.agents,
        },
        "verdict": str(record.judge()),
        "keys": record.schedule.fixture.keys,
    }


def lab_rows(exercise: Exercise, records: List[Record]) -> List[List[str]]:
    """Returns what the lab says of each match of an exercise, and of all together."""
    return [
        *(exercise.check(record.match.match) for record in records),
        exercise.check_all(
            [(record.match.match, record.schedule.fixture.keys) for record in records]
        ),
    ]


def beginnings_of(lines: List[str]) -> List[str]:
    """Returns the beginnings of sentences, which name no call of a language."""
    return [re.sub(r"`.*|:.*", "", line) for line in lines]


class Answers(unittest.TestCase):
    def test_wrong_answers_are_not_called_right_nor_right_ones_wrong(self) -> None:
        counts = {False: 0, True: 0}
        for answer in exercise_answers.answers():
            with self.subTest(answer):
                lines = exercise_answers.findings(answer.exercise, answer.agent)
                self.assertEqual(not lines, answer.is_right, lines)
                counts[answer.is_right] += 1
        self.assertGreaterEqual(counts[False], 60)
        self.assertGreaterEqual(counts[True], 20)


@unittest.skipUnless(shutil.which("node"), "Debian's nodejs is not installed")
class Page(unittest.TestCase):
    def test_its_exercises_are_those_of_the_lab(self) -> None:
        rows, _ = ask_page([])
        self.assertEqual(
            [(row["name"], row["title"], row["agents"]) for row in rows],
            [
                (exercise.name, exercise.title, exercise.agents)
                for exercise in exercises.exercises().values()
            ],
        )

    def test_its_checks_find_what_the_checks_of_the_lab_find(self) -> None:
        """Both are asked of the same matches of right and wrong answers."""
        requests = []
        lab_lines = []
        for answer in exercise_answers.answers():
            exercise = answer.exercise
            records = exercise_answers.records(exercise, answer.agent)
            requests.append((exercise.name, list(map(as_page, records))))
            lab_lines.append(lab_rows(exercise, records))
        _, page_lines = ask_page(requests)
        for (name, _), page_rows, rows in zip(requests, page_lines, lab_lines):
            self.assertEqual(len(page_rows), len(rows))
            for page_row, row in zip(page_rows, rows):
                with self.subTest(name, lines=row):
                    self.assertEqual(*map(beginnings_of, (page_row, row)))
