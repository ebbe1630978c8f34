"""The sample hall of examples/hall.py: three teams play in it, it ends by itself or by
a signal, and leaves nothing."""
import contextlib
import os
import pathlib
import signal
import sqlite3
import subprocess
import sys
import tempfile
import time
import unittest
from typing import Any, Callable, List, Set

from arena_lab.sandbox.processes import process_numbers
from arena_lab.support.built import TOP
from tests.support.matches import program

# how long the hall is shown, and how long anything in it may take on a busy machine
SHOWN = 15
PATIENCE = 120.0
TEAMS = {"amber", "birch", "cedar"}
PLAYED = "SELECT DISTINCT name FROM teams_team JOIN attempts_attempt ON team_id = teams_team.id"


class Example(unittest.TestCase):
    def setUp(self) -> None:
        self.folder = self.enterContext(tempfile.TemporaryDirectory(prefix="example-"))

    def start(self, *words: object) -> "subprocess.Popen[str]":
        """The sample hall, whose files are in the test's folder."""
        child = subprocess.Popen(
            [
                sys.executable,
                str(TOP / "examples" / "hall.py"),
                "--no-browser",
                *map(str, words),
            ],
            text=True,
            stdin=subprocess.DEVNULL,
            stdout=subprocess.PIPE,
            stderr=subprocess.DEVNULL,
            env={**os.environ, "TMPDIR": self.folder, "ARENA": program()},
        )
        self.addCleanup(
            lambda: [
                os.kill(number, signal.SIGKILL) for number in self.processes_left()
            ]
        )
        self.addCleanup(child.communicate)
        self.addCleanup(child.kill)
        return child

    def wait(self, holds: Callable[[], Any], what: str) -> None:
        limit = time.monotonic() + PATIENCE
        while not holds():
            self.assertLess(time.monotonic(), limit, what)
            time.sleep(0.2)

    def teams(self) -> Set[str]:
        """The teams that have asked for a match."""
        paths = list(pathlib.Path(self.folder).glob("hall-*/course.hall/hall.sqlite3"))
        with contextlib.suppress(sqlite3.OperationalError, IndexError):
            with contextlib.closing(sqlite3.connect(paths[0])) as database:
                return {name for name, in database.execute(PLAYED)}
        return set()

    def processes_left(self) -> List[int]:
        """Returns the hall's processes, by their environment, command line or
        folder."""
        results = []
        folder = self.folder.encode()
        for process in process_numbers():
            with contextlib.suppress(OSError):
                path = pathlib.Path(f"/proc/{process}")
                texts = [(path / name).read_bytes() for name in ("environ", "cmdline")]
                if any(
                    folder in text
                    for text in [*texts, os.readlink(path / "cwd").encode()]
                ):
                    results.append(process)
        return results

    def end_of(self, child: "subprocess.Popen[str]", status: int) -> str:
        """What it has said, once it has ended with this status and left nothing."""
        output, _ = child.communicate(timeout=PATIENCE)
        self.assertEqual(child.returncode, status, output)
        self.assertEqual(self.processes_left(), [])
        self.assertEqual(os.listdir(self.folder), [])
        return output

    def test_three_teams_play_and_it_ends_by_itself(self) -> None:
        child = self.start("--demo-seconds", SHOWN)
        self.wait(lambda: self.teams() == TEAMS, "three teams have asked for matches")
        address, token, teacher, *rows = self.end_of(child, 0).splitlines()
        self.assertTrue(address.startswith("hall http://127.0.0.1:"))
        self.assertTrue(token.startswith("log in as a team: amber."))
        self.assertIn("user teacher, password ", teacher)
        self.assertEqual(len(rows), 4)
        self.assertIn("absent dormouse", rows[-1])

    def test_a_signal_ends_it_with_its_teams(self) -> None:
        child = self.start()
        self.wait(self.teams, "a team has asked for a match")
        child.send_signal(signal.SIGTERM)
        self.end_of(child, 128 + signal.SIGTERM)
