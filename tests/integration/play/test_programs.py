"""Programs over loopback: a schedule gives the same match whoever plays it, and who
keeps to no rule is named."""
import pathlib
import shutil
import subprocess
import sys
import unittest
from typing import List

from arena_lab.play import kept_matches, schedulers
from arena_lab.play.agent_files import AgentError
from arena_lab.play.matches import PlayedMatch
from arena_lab.play.schedules import schedule_of
from arena_lab.play.teams import OUTSIDE, AgentWords
from arena_lab.rules.networks import ring
from tests.support.matches import AGENTS, RING, fixture, play_fixture, program, under
from tests.support.output import InTemporary
from tests.support.processes import remaining

PYTHON = AgentWords(
    OUTSIDE,
    f"{sys.executable} {AGENTS / 'ring.py'} {{host}} {{port}} {{key}} {{nodes}}",
)
RUDE = pathlib.Path(__file__).resolve().parents[2] / "support" / "agents" / "rude.py"
FAULTS = {
    "dies": "agent 1: has ended with status 1 before it connected: no such map",
    "silent": "agent 1: has sent no line for 1 s; does it flush after each line?",
    "stranger": "agent 1: enters with the key of another agent",
    "endless": "agent 1: has sent no line for 1 s; does it end each line with a line feed, and flush?",
    "twice": "agent 1: has connected twice",
    "flood": "agent 1: was refused 1000 times in a row",
    "garbage": 'agent 1: was not let in: {"no":"enter"}',
    "crash": "agent 1: has ended with status 137 in the middle of its match",
    "blank": "agent 1: has sent no line for 1 s; does it flush after each line?",
}
# who is waited for, and how many seconds: a machine may be slow to start the others
WAITED_FOR = ("silent", "endless", "blank")
SHORT = 1
LONG = 30


class Programs(InTemporary):
    def of(
        self, agents: List[AgentWords], seed: int, seconds: float = 5
    ) -> PlayedMatch:
        return under(
            schedulers.fair(seed), fixture(ring(8), 5), agents, seconds=seconds
        )

    def test_programs_and_agents_inside_play_the_same(self) -> None:
        for seed in range(3):
            inside = play_fixture(fixture(ring(8), 5), RING, seed, schedulers.fair)
            for agents in ([PYTHON, PYTHON], [PYTHON, RING]):
                with self.subTest(seed=seed):
                    self.assertEqual(self.of(agents, seed).replay, inside.replay)

    def test_what_a_program_wrote_to_standard_error_is_kept(self) -> None:
        dies = AgentWords(
            OUTSIDE, f"{sys.executable} {RUDE} dies {{host}} {{port}} {{key}}"
        )
        match = self.of([PYTHON, dies], 0)
        self.assertEqual(list(match.errors), [1])
        schedule = schedule_of(
            fixture(ring(8), 5), [PYTHON, dies], "a test", match.choices
        )
        folder = self.folder
        kept_matches.write_find(folder, schedule, match, None)
        self.assertIn("no such map", (folder / "errors1.txt").read_text())
        self.assertFalse((folder / "errors0.txt").exists())
        # standard error does not belong to the match
        (folder / "errors1.txt").write_text("another time")
        self.assertEqual(kept_matches.changed_in(folder, schedule, match, None), [])

    @unittest.skipUnless(shutil.which("cc"), "no C compiler")
    def test_programs_in_c_are_played_again_on_both_engines(self) -> None:
        path = f"{self.folder}/ring"
        subprocess.run(["cc", "-O2", "-o", path, str(AGENTS / "ring.c")], check=True)
        agents = [AgentWords(OUTSIDE, f"{path} {{port}} {{key}} 8"), PYTHON]
        once = self.of(agents, 7)
        self.assertFalse(once.has_failed())
        schedule = schedule_of(fixture(ring(8), 5), agents, "fair 7", once.choices)
        for engine in (None, program()):
            self.assertEqual(
                kept_matches.played_again(schedule, engine).replay, once.replay
            )

    def test_who_keeps_to_no_rule_is_named_and_ended(self) -> None:
        for how, fault in FAULTS.items():
            with self.subTest(how):
                rude = AgentWords(
                    OUTSIDE, f"{sys.executable} {RUDE} {how} {{host}} {{port}} {{key}}"
                )
                result = self.of([RING, rude], 1, SHORT if how in WAITED_FOR else LONG)
                self.assertEqual(result.faults, [fault])
                self.assertTrue(result.has_failed())
                self.assertEqual(remaining(str(RUDE)), [])

    def test_what_the_silent_started_is_ended(self) -> None:
        rude = AgentWords(
            OUTSIDE,
            f"{sys.executable} {RUDE} silent:{self.folder.name} {{host}} {{port}} {{key}}",
        )
        self.of([rude, rude], 1, SHORT)
        self.assertEqual(remaining(self.folder.name), [])

    def test_a_command_that_cannot_be_started_is_told(self) -> None:
        for words in ("no-such-program {port}", "cat {nothing}"):
            with self.assertRaises(AgentError):
                self.of([AgentWords(OUTSIDE, words)] * 2, 1)
