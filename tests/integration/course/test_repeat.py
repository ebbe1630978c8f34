"""Agents are repeated alone at home, in hunts and searches, and for a graded course
that was copied elsewhere."""
import pathlib
import shutil
from typing import List, Tuple

from arena_lab.__main__ import main
from arena_lab.rules.engines import TOP
from tests.support.matches import AGENTS, InFolder, program
from tests.support.output import run_call

EXAMPLE = TOP / "examples" / "course"
# expression for an agent's text -> whether repetitions agree
WAYS = {
    "str(time.time_ns())": False,
    "key": False,
    "os.urandom(8).hex()": False,
    "os.environ['ARENA_SEED']": True,
    "str(random.Random(int(os.environ['ARENA_SEED'])).random())": True,
    "str(set('abcdefgh'))": True,
}
# an agent that solves the ring of three nodes with the black hole at node 2, and writes
# something
WRITES = """import json, os, random, socket, sys, time
port, key = int(sys.argv[1]), sys.argv[2]
lines = socket.create_connection(("127.0.0.1", port)).makefile("rw")
for command in ({"do": "enter", "key": key}, {"do": "write", "expect": "", "put": WAY}, {"do": "depart", "port": 0},
                {"do": "accuse", "port": 0}):
    lines.write(json.dumps(command) + "\\n")
    lines.flush()
    if "gone" in lines.readline():
        lines.readline()
"""
# the same as an agent inside the lab
INSIDE = """import os, time
def search(agent, key, *_):
    here = agent.enter(key)
    agent.write(here.board, WAY)
    agent.depart(0)
    agent.accuse(0)
"""
SAYS_OTHERWISE = "says something else when it is told the same again, at command 2: in the match `write"


class Commands(InFolder):
    def output(self, *words: str) -> Tuple[int, str]:
        """Returns the status and the output of a command."""
        status, output, errors = run_call(main, list(words))
        return status, output + errors


class Repeats(Commands):
    def words(self, kind: str, variant: str) -> List[str]:
        """The words for a match of one agent."""
        file = self.folder / "it.py"
        outside = kind == "--command"
        file.write_text((WRITES if outside else INSIDE).replace("WAY", variant))
        command = f"python3 {file} {{port}} {{key}}" if outside else str(file)
        return [
            "--engine",
            "model",
            "--network",
            "ring:3",
            "--hole",
            "2",
            "--agents",
            "1",
            kind,
            command,
        ]

    def test_at_home(self) -> None:
        for variant, repeats in WAYS.items():
            with self.subTest(variant):
                status, output = self.output(
                    "run", "--repeat", *self.words("--command", variant)
                )
                self.assertEqual(
                    (status, SAYS_OTHERWISE in output),
                    (int(not repeats), not repeats),
                    output,
                )
        status, _ = self.output("run", *self.words("--command", "key"))
        self.assertEqual(status, 0)

    def test_agents_inside_and_workers(self) -> None:
        for variant, repeats in (
            ("key", False),
            ("str(time.time_ns())", False),
            ("'it'", True),
        ):
            with self.subTest(variant):
                words = [
                    "--workers",
                    "2",
                    "--runs",
                    "3",
                    *self.words("--agent", variant),
                ]
                status, output = self.output("run", "--repeat", *words)
                self.assertEqual(
                    (status, SAYS_OTHERWISE in output),
                    (int(not repeats), not repeats),
                    output,
                )

    def test_sample_agents_that_sleep(self) -> None:
        for words in (
            ["--agent", f"{AGENTS}/ring.py {{nodes}}"],
            ["--agent", f"{AGENTS}/map.py {{nodes}} {{links}}"],
            [
                "--command",
                f"python3 {AGENTS}/ring.py {{host}} {{port}} {{key}} {{nodes}}",
            ],
        ):
            with self.subTest(words):
                status, output = self.output(
                    "run",
                    "--repeat",
                    "--engine",
                    "model",
                    "--network",
                    "ring:6",
                    "--runs",
                    "3",
                    *words,
                )
                self.assertEqual(status, 0, output)

    def test_hunts(self) -> None:
        for variant, expectation in (("key", 1), ("'it'", 0)):
            status, output = self.output(
                "hunt",
                "--repeat",
                "--runs",
                "20",
                "--database",
                str(self.folder / "db"),
                "--keep",
                str(self.folder / "found"),
                *self.words("--agent", variant),
            )
            self.assertEqual(
                (status, SAYS_OTHERWISE in output),
                (expectation, bool(expectation)),
                output,
            )

    def test_a_search_warns(self) -> None:
        for variant, expectation in (("key", True), ("'it'", False)):
            words = [
                "--engine",
                "program",
                "--program",
                program(),
                *self.words("--agent", variant)[2:],
            ]
            status, output = self.output("explore", *words)
            self.assertEqual(
                (status, f"warning: agent 0: {SAYS_OTHERWISE}" in output),
                (0, expectation),
                output,
            )


class Courses(Commands):
    def grade(self) -> pathlib.Path:
        """The results of the example, which have come here from elsewhere."""
        there = self.folder / "there"
        status, output = self.output(
            "grade",
            str(EXAMPLE / "course.toml"),
            "--secret",
            str(EXAMPLE / "secret.txt"),
            "--out",
            str(there),
            "--engine",
            "model",
            "--workers",
            "2",
        )
        self.assertEqual(status, 0, output)
        return pathlib.Path(shutil.move(there, self.folder / "here"))

    def test_a_course_is_repeated_by_its_results_alone(self) -> None:
        here = self.grade()
        status, output = self.output(
            "grade", "--repeat-only", str(here), "--workers", "2"
        )
        self.assertEqual(
            (status, output.splitlines()[:3]),
            (
                0,
                [
                    "amber: 4 of 4 solved matches repeat",
                    "birch: 4 of 4 solved matches repeat",
                    "cedar: 2 of 2 solved matches repeat",
                ],
            ),
        )
        # a match that went otherwise than its replay says
        replay = min((here / "solved").glob("amber-*"))
        text = replay.read_text()
        replay.write_text(
            text.replace('"do":"depart","port":0', '"do":"depart","port":1')
        )
        status, output = self.output("grade", "--repeat-only", str(here))
        self.assertEqual(
            (status, output.splitlines()[0]),
            (1, "amber: 3 of 4 solved matches repeat"),
            output,
        )
        self.assertIn(f"match {replay.stem.partition('-')[2]}: agent ", output)

    def test_programs_that_were_exchanged_are_refused(self) -> None:
        here = self.grade()
        shutil.copy(here / "hand-ins" / "birch.tar", here / "hand-ins" / "amber.tar")
        status, output = self.output("grade", "--repeat-only", str(here))
        self.assertEqual(status, 2)
        self.assertIn(
            "hand-ins/amber.tar: it is not what the team has handed in", output
        )
