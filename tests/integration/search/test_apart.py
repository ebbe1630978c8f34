"""`explore` fails agents that rely on an accident of one process, on chance, on a clock
or on a shared library: each of them fails outside, always or now and then. Of other
agents it says what they read besides replies."""
import pathlib
import subprocess
import sys

from arena_lab import api as lab
from tests.integration.search.exploring import InExplore
from tests.support.matches import program

AGENT = """{lines}
def search(agent, key):
    agent.enter(key)
    {first}
    agent.depart(1)
    agent.accuse(1 if {is_right} else 0)
"""
# nondeterministic agents: their code, first action, and condition of success
ACCIDENTS = {
    "the order of a set": (
        "",
        "agent.write('', ' '.join({'left', 'right', 'up', 'down'}))",
        "True",
    ),
    "the system's chance": ("import os", "pass", "os.urandom(1)[0] > 20"),
    "chance that nobody seeds": (
        "import random\nR = random.Random()",
        "pass",
        "R.random() > .1",
    ),
    "a secret": ("import secrets", "pass", "secrets.randbelow(10)"),
    "a clock": ("import time", "pass", "time.time_ns() // 1000 % 10"),
    "the time": (
        "from datetime import datetime",
        "pass",
        "datetime.now().microsecond % 10",
    ),
    "what all programs share": (
        "import string",
        "string.zz = getattr(string, 'zz', 0) + 1",
        "string.zz % 7",
    ),
}
# agents that solve; the verdict names what each of them reads or reaches
READ = {
    "know where objects lie": ("", "pass", "id(agent) > 0"),
    "share the installed greenlet": ("import greenlet", "pass", "True"),
    "reach what lies outside, since it writes a file": (
        "",
        "open('/dev/null', 'w').close()",
        "True",
    ),
}
# kind of input -> library modules that read it
READERS = {
    "draw by chance": [
        "os.urandom(1)",
        "random.SystemRandom().random()",
        "random.random()",
        "secrets.randbelow(9)",
        "uuid.uuid4()",
    ],
    "read a clock": [
        "time.time()",
        "time.monotonic()",
        "time.clock_gettime(time.CLOCK_MONOTONIC)",
        "time.asctime()",
        "datetime.datetime.now()",
        "os.times()",
        "uuid.uuid1()",
        "resource.getrusage(0)",
    ],
    "know their process": ["os.getpid()", "os.getppid()"],
}
MATES = """
import sys
sys.path.insert(0, {folder!r})
import marks


def first(agent, key):
    agent.enter(key)
    marks.MARKS.append("safe")
    agent.leave()


def second(agent, key):
    agent.enter(key)
    agent.look()
    agent.depart(1)
    agent.accuse(1 if marks.MARKS else 0)
"""


class Apart(InExplore):
    def explore(self, lines: str, first: str, is_right: str, check: int = 20) -> int:
        (self.folder / "agent.py").write_text(
            AGENT.format(lines=lines, first=first, is_right=is_right)
        )
        return self.command(
            "--network",
            "ring:3",
            "--hole",
            1,
            "--agents",
            1,
            "--agent",
            f"{self.folder}/agent.py",
            "--check",
            check,
        )

    def test_accidents_are_found_out(self) -> None:
        for name, agent in ACCIDENTS.items():
            with self.subTest(name):
                self.assertNotEqual(self.explore(*agent), 0, self.output)
                self.assertNotIn("every schedule solves", self.output)

    def test_two_looks_are_two_texts(self) -> None:
        first = (
            "agent.write('', 'seen'); kept = agent.look().board is agent.look().board"
        )
        self.assertEqual(self.explore("", first, "kept"), 1, self.output)

    def test_it_is_said_what_agents_go_by(self) -> None:
        for message, agent in READ.items():
            with self.subTest(message):
                self.assertEqual(self.explore(*agent), 0, self.output)
                self.assertIn(
                    f"; the agents {message}, and may do something else another time\n",
                    self.output,
                )
        self.assertEqual(
            self.explore(
                "import random\nrandom.seed(7)", "pass", "random.random() < 2"
            ),
            0,
        )
        self.assertIn(
            "checked, and all agree: 20 drawn schedules, 200 histories told in other processes, the Python "
            "model's search of 1 of 1 matches\n",
            self.output,
        )

    def test_each_reader_of_the_library_is_named(self) -> None:
        for message, readers in READERS.items():
            for reader in readers:
                with self.subTest(reader):
                    lines = f"import {reader.partition('.')[0]}"
                    self.assertEqual(
                        self.explore(lines, "pass", f"{reader} is not None", check=1),
                        0,
                        self.output,
                    )
                    self.assertIn(
                        f"; the agents {message}, and may do something else another time\n",
                        self.output,
                    )

    def test_a_library_in_another_folder_is_of_one_agent(self) -> None:
        (self.folder / "elsewhere").mkdir()
        (self.folder / "elsewhere" / "marks.py").write_text("MARKS = []\n")
        file = self.folder / "mates.py"
        file.write_text(MATES.format(folder=str(self.folder / "elsewhere")))
        team = ["--agent", f"{file}:first", "--agent", f"{file}:second"]
        self.assertEqual(
            self.command("--network", "ring:3", "--hole", 1, *team), 1, self.output
        )
        self.assertIn("it comes to: home 0 holes [1], wrong", self.output)
        self.assertNotIn("marks", sys.modules)
        row = lab.play("ring:3", [f"{file}:first", f"{file}:second"], holes=[1])[0]
        self.assertEqual(row["outcome"], "wrong")

    def test_what_a_program_of_the_lab_finds_does_not_hang_on_its_start(self) -> None:
        """The lab's own command fixes the order of sets; a script that uses
        `arena_lab.api` has any."""
        lines, first, is_right = ACCIDENTS["the order of a set"]
        (self.folder / "agent.py").write_text(
            AGENT.format(lines=lines, first=first, is_right=is_right)
        )
        text = (
            "import sys, arena_lab.api as lab\n"
            f"print(lab.explore('ring:3', {str(self.folder / 'agent.py')!r}, count=1, holes=[1], "
            f"engine={program()!r}).solves)"
        )
        for seed in map(str, range(4)):
            result = subprocess.run(
                [sys.executable, "-c", text],
                capture_output=True,
                text=True,
                check=False,
                env={
                    "PYTHONHASHSEED": seed,
                    "PATH": "/usr/bin:/bin",
                    "PYTHONPATH": str(pathlib.Path.cwd()),
                },
            )
            self.assertNotIn("True", result.stdout, result.stderr)
