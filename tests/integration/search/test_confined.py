"""An agent with a runner of its own is confined by each command that starts its program:
here by all steps of a check, which play, repeat, keep waiting, draw, hunt and explore."""
import os
import pathlib
import sys
import unittest
from unittest import mock

from arena_lab.course import check_steps
from arena_lab.course.check_jobs import CheckJob, CheckBudget, conditions_of
from arena_lab.play.teams import OUTSIDE, AgentWords
from arena_lab.sandbox import sandboxes
from arena_lab.sandbox.own_sandboxes import OwnSandboxes
from arena_lab.sandbox.sandboxes import ProgramFiles, SandboxOptions
from tests.support.matches import AGENTS, program
from tests.support.output import InTemporary
from arena_lab.submissions import submission

# writes where its folder is, and whether it sees a file; enters and leaves
PROGRAM = """import os, pathlib, sys
from client import Agent
host, port, key, mark = sys.argv[1:]
try:
    with open(mark, "a") as file:
        file.write(f"{os.getcwd()}\\n")
except OSError:
    pass
agent = Agent.connect(host, int(port))
agent.enter(key)
agent.leave()
"""
STEPS = (check_steps.matches, check_steps.wait, check_steps.search, check_steps.every)


class Confined(InTemporary):
    def setUp(self) -> None:
        super().setUp()
        self.addCleanup(os.chdir, os.getcwd())
        os.chdir(self.folder)
        self.folder.chmod(0o777)
        self.mark = self.folder / "mark"
        for name, text in (
            ("agent.py", PROGRAM),
            ("client.py", (AGENTS / "client.py").read_text()),
        ):
            (self.folder / name).write_text(text)

    def left_by(self, agent: AgentWords) -> int:
        """Returns how many lines the program leaves outside its runner; each step finds
        that it has played and does not solve its match."""
        settings = {
            "networks": ["ring:3"],
            "schedulers": ["fair"],
            "seeds": 1,
            "ports": "given",
        }
        job = CheckJob(
            agent,
            conditions_of(settings, pathlib.Path("."), agent, 1),
            60,
            program(),
            60,
            True,
        )
        with mock.patch.multiple(check_steps, EXPLORE_NETWORKS=("ring:3",)):
            for step in STEPS:
                wrong = step(job, CheckBudget(60))[1]
                assert wrong is not None
                self.assertEqual(wrong.record.match.faults, [], step.__name__)
                self.assertEqual(
                    [it["do"] for it in wrong.record.match.match.log],
                    ["enter", "leave", "close"],
                )
        return len(self.mark.read_text().splitlines()) if self.mark.exists() else 0

    def test_no_step_starts_a_program_elsewhere(self) -> None:
        words = f"{{host}} {{port}} {{key}} {self.mark}"
        here = AgentWords(OUTSIDE, f"{sys.executable} agent.py {words}")
        self.assertGreater(self.left_by(here), len(STEPS))
        self.mark.unlink()
        if sandboxes.weakness():
            raise unittest.SkipTest(f"no walls here: {sandboxes.weakness()}")
        files = submission.read_paths([self.folder], self.folder).archive()
        record = ProgramFiles(files, {}, "python")
        runner = OwnSandboxes(SandboxOptions(sandboxes.strongest()), lambda _: record)
        apart = AgentWords(OUTSIDE, f"python3 agent.py {words}", runner_for=runner)
        self.assertEqual(self.left_by(apart), 0)
