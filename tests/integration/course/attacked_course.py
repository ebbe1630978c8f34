"""A course of one team, whose program a test writes, and its walls."""
import os
import pathlib
import subprocess
import tempfile
import unittest
from typing import Any, Dict, List

from arena_lab.__main__ import main
from arena_lab.course.graded_matches import GradingRun
from arena_lab.play import schedulers
from arena_lab.play.matches import PlayedMatch
from arena_lab.rules.engines import TOP
from arena_lab.sandbox import sandboxes
from arena_lab.sandbox.sandboxes import Isolation, SandboxOptions
from tests.support.courses import HEAD, grade_words, rows_of_teams, team
from tests.support.output import run_call

HAS_SANDBOX = sandboxes.strongest() is Isolation.ALL
IS_ROOT = os.geteuid() == 0
# all that can keep programs apart for the user who runs the tests
ALL_ISOLATION = (
    [Isolation.ALL] * HAS_SANDBOX
    + [Isolation.USER] * IS_ROOT
    + [Isolation.NONE] * (not IS_ROOT)
)
SECRET = "a secret of the tests"
NEEDS_SANDBOX = unittest.skipUnless(
    HAS_SANDBOX, f"no walls here: {sandboxes.weakness()}"
)

# begins an agent's program: `ask` plays, by the port and the key that stand first in
# the command
BEGINS = """import json, os, socket, sys, time
def connect():
    server = socket.create_connection(("127.0.0.1", int(sys.argv[1])))
    lines = server.makefile("rw", newline="\\n")
    def ask(**command):
        lines.write(json.dumps(command) + "\\n")
        lines.flush()
        return lines.readline()
    return ask
"""
ENTERS = (
    BEGINS
    + """ask = connect()
ask(do="enter", key=sys.argv[2])
"""
)


EVIL = "python3 evil.py {port} {key}"


def first_match(grading: GradingRun) -> PlayedMatch:
    """Plays the first match of a grading."""
    return grading.match(grading.course.cases()[0], schedulers.fair(0), None)[1]


class Course(unittest.TestCase):
    """A course of one team, whose program a test writes."""

    # secret from which the keys of its matches are derived
    SECRET = SECRET

    def setUp(self) -> None:
        folder = tempfile.mkdtemp()
        os.chmod(folder, 0o755)
        self.addCleanup(subprocess.run, ["rm", "-rf", folder])
        self.addCleanup(os.chdir, os.getcwd())
        os.chdir(TOP)
        self.folder = pathlib.Path(folder)
        self.team = self.folder / "evil"
        self.team.mkdir()

    def grading(
        self,
        isolation: Isolation,
        code: str,
        agents: int = 1,
        head: str = HEAD,
        **sandbox: Any,
    ) -> GradingRun:
        """A grading of the team, which has written nothing yet."""
        (self.team / "evil.py").write_text(code)
        sandboxes.remove(self.folder / "out")
        text = head + team("evil", ["evil"], EVIL, agents)
        return GradingRun(
            text,
            self.folder,
            self.SECRET,
            None,
            SandboxOptions(isolation, **sandbox),
            self.folder / "out",
        )

    def play(
        self, isolation: Isolation, code: str, *agents: int, **extra: Any
    ) -> PlayedMatch:
        """A match of the team."""
        return first_match(self.grading(isolation, code, *agents, **extra))

    def last_words(
        self, isolation: Isolation, code: str, agents: int = 1, **extra: Any
    ) -> List[str]:
        """The last words of the team's programs, each of which ends before it
        connects."""
        faults = self.play(isolation, code, agents, **extra).faults
        return [fault.partition("before it connected: ")[2] for fault in faults]

    def grade(self, text: str, out: str = "out", status: int = 0) -> Dict[str, Any]:
        """Grades a course by the command, and gives the rows of each team."""
        file = self.folder / "course.toml"
        file.write_text(text)
        words = grade_words(file, self.folder / out, 2)
        self.assertEqual(run_call(main, words).status, status)
        return rows_of_teams(self.folder / out)
