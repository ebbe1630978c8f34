"""Limits the computing time of agents inside the lab; a busy machine must not end
them."""
import subprocess
import sys
import time
import unittest
from typing import Any, Callable, List
from unittest import mock

from arena_lab.play import players
from arena_lab.play.players import Team, faults_of
from arena_lab.rules.engines import TOP
from tests.support.output import InTemporary

SECONDS = 0.2


def faults(agent: Callable[[], Any], longer: float) -> List[str]:
    """Returns the faults of an agent that calls this function and ends."""
    with mock.patch.object(players, "LONGER", longer):
        team = Team(["k0"], {0: lambda lines, key, sleep: agent()}, SECONDS)
    try:
        team.start()
    finally:
        team.stop()
    return faults_of(team.players)


def compute() -> None:
    while True:
        pass


class Limits(unittest.TestCase):
    def test_who_waits_for_the_machine_is_not_ended(self) -> None:
        self.assertEqual(faults(lambda: time.sleep(4 * SECONDS), 100), [])

    def test_who_computes_without_end_is_ended(self) -> None:
        self.assertEqual(
            faults(compute, 10_000),
            ["agent 0: has computed for 0.2 s, and neither sends nor waits"],
        )

    def test_who_sleeps_without_end_is_ended(self) -> None:
        lines = [
            "agent 0: has slept or computed for 0.4 s, and neither sends nor waits"
        ]
        self.assertEqual(faults(lambda: time.sleep(10_000), 2), lines)


# an agent that computes without end
ENDLESS = """def search(agent, key):
    print("begun", flush=True)
    while True:
        pass
"""


class Ends(InTemporary):
    def test_who_ends_the_lab_ends_it_while_an_agent_computes(self) -> None:
        path = self.folder / "endless.py"
        path.write_text(ENDLESS)
        words = [
            sys.executable,
            "-m",
            "arena_lab",
            "run",
            "--engine",
            "model",
            "--timeout",
            "1000",
            "--agent",
            str(path),
        ]
        with subprocess.Popen(
            words, cwd=TOP, stdout=subprocess.PIPE, text=True
        ) as process:
            self.assertEqual(process.stdout.readline(), "begun\n")
            process.terminate()
            self.assertEqual(process.communicate(timeout=60)[0], "")
        self.assertEqual(process.returncode, 143)
