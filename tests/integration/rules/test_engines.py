"""The engines agree, what a schedule says is played again byte for byte, and a wrong
engine is found out."""
import random
import re
import subprocess
import unittest
from unittest import mock

from arena_lab.__main__ import main
from arena_lab.play import kept_matches
from arena_lab.play.schedules import read_schedule, schedule_of, text_of
from arena_lab.rules.engines import EnginesDifferError, Program
from arena_lab.rules.networks import ring
from arena_lab.rules.rehearsal import Rehearsal
from tests.support.matches import (
    AGENTS,
    MAP,
    RING,
    fixture,
    network_fixture,
    play_fixture,
    program,
)
from tests.support.output import InTemporary, run_call

# (file, old text, new text, status, message): changes of a kept match
CHANGES = (
    (
        "schedule.txt",
        r"\n$",
        "\nanswer 0\n",
        1,
        "is `answer 0`, and nothing may happen there",
    ),
    ("schedule.txt", r"(\n\w+ \d){2}\n$", "\n", 1, "the replay is another one"),
    (
        "schedule.txt",
        r'"files":\{[^}]*\}',
        '"files":{}',
        1,
        "is another file than when the schedule was made",
    ),
    (
        "schedule.txt",
        '"nodes":8',
        '"nodes":3',
        2,
        "a link has an end that does not exist: nodes are 0 to 2",
    ),
    (
        "schedule.txt",
        '"agents":2',
        '"agents":3',
        2,
        "its head names 2 agents and 2 keys, and the match has 3 agents",
    ),
    (
        "schedule.txt",
        '"quota":1000',
        '"quota":999',
        1,
        "tournament.toml is not what belongs to this schedule",
    ),
    ("match0.jsonl", '"holes":.4.', '"holes":[5]', 1, "the replay is another one"),
    (
        "script.txt",
        "draw 0 0",
        "draw 0 1",
        1,
        "script.txt is not what belongs to this schedule",
    ),
    (
        "tournament.toml",
        "holes = .4.",
        "holes = [5]",
        1,
        "tournament.toml is not what belongs to this schedule",
    ),
    (
        "network.toml",
        "nodes = 8",
        "nodes = 9",
        1,
        "network.toml is not what belongs to this schedule",
    ),
    (
        "match0.html",
        "</body>",
        "<p></p></body>",
        1,
        "match0.html is not what belongs to this schedule",
    ),
)


class Engines(unittest.TestCase):
    def test_a_replay_that_differs_is_found_out(self) -> None:
        with mock.patch.object(
            Rehearsal, "replay", lambda self: b""
        ), self.assertRaises(EnginesDifferError):
            play_fixture(
                fixture(ring(4), 2),
                RING,
                1,
                engine=lambda conditions: Program(conditions, program()),
            )

    def test_the_sample_agents_play_the_same_on_both(self) -> None:
        for seed in range(3):
            for agent, match_fixture in (
                (RING, fixture(ring(8), 5)),
                (MAP, network_fixture(random.Random(seed))),
            ):
                with self.subTest(seed=seed, agent=agent.words):
                    proof = play_fixture(
                        match_fixture,
                        agent,
                        seed,
                        engine=lambda fixture_given: Program(fixture_given, program()),
                    )
                    trial = play_fixture(match_fixture, agent, seed)
                    self.assertEqual(proof.replay, trial.replay)
                    self.assertEqual(proof.choices, trial.choices)


class Schedules(InTemporary):
    def command(self, *words: str) -> int:
        status, output, errors = run_call(main, [str(word) for word in words])
        self.said = output + errors
        return status

    def test_a_schedule_is_written_and_read(self) -> None:
        match_fixture = network_fixture(random.Random(3))
        agents = [MAP] * match_fixture.setup.agents
        schedule = schedule_of(
            match_fixture, agents, "test 1", play_fixture(match_fixture, MAP, 1).choices
        )
        (self.folder / "s").write_text(text_of(schedule), encoding="utf-8")
        self.assertEqual(read_schedule(self.folder / "s"), schedule)
        for program_or_none in (None, program()):
            self.assertEqual(
                kept_matches.played_again(schedule, program_or_none).replay,
                play_fixture(match_fixture, MAP, 1).replay,
            )

    def test_a_run_is_kept_and_played_again(self) -> None:
        kept_folder = self.folder / "kept"
        words = [
            "--network",
            "ring:8",
            "--agent",
            RING.words,
            "--scheduler",
            "slow-agents",
            "--program",
            program(),
        ]
        self.assertEqual(
            self.command("run", *words, "--runs", "3", "--keep", kept_folder), 0
        )
        self.assertIn("3 schedules: solved 3; failed 0", self.said)
        self.assertIn("the program's verdict: solved moves 37 lost 1", self.said)
        for engine in (["--program", program()], ["--engine", "model"]):
            self.assertEqual(self.command("replay", kept_folder, *engine), 0)
            self.assertIn("the same, byte for byte", self.said)
        with open(kept_folder / "script.txt", "rb") as script:
            subprocess.run(
                [program(), "rehearse", "tournament.toml", "--replay", "again"],
                cwd=kept_folder,
                stdin=script,
                stdout=subprocess.DEVNULL,
                check=True,
            )
        self.assertEqual(
            (kept_folder / "again0.jsonl").read_bytes(),
            (kept_folder / "match0.jsonl").read_bytes(),
        )
        again = self.folder / "again.jsonl"
        again.write_bytes((kept_folder / "match0.jsonl").read_bytes() + b"\n")
        self.assertEqual(
            self.command(
                "replay", kept_folder, "--engine", "model", "--against", again
            ),
            1,
        )

    def test_a_schedule_that_cannot_happen_is_told(self) -> None:
        match_fixture = fixture(ring(3), 1)
        schedule = schedule_of(match_fixture, [RING] * 2, "by hand", [])
        (self.folder / "s").write_text(
            text_of(schedule) + "answer 0\narrive 1\n", encoding="utf-8"
        )
        self.assertEqual(
            self.command("replay", self.folder / "s", "--engine", "model"), 1
        )
        self.assertIn(
            "choice 2 is `arrive 1`, and what may happen there is: answer 0, answer 1",
            self.said,
        )
        (self.folder / "s").write_text(
            text_of(schedule).replace('["agent ', '["agnt '), encoding="utf-8"
        )
        self.assertEqual(
            self.command("replay", self.folder / "s", "--engine", "model"), 2
        )
        self.assertIn("its first line is no head of a schedule", self.said)
        (self.folder / "s").write_text(
            text_of(schedule) + "answer 0\nnothing\n", encoding="utf-8"
        )
        self.assertEqual(
            self.command("replay", self.folder / "s", "--engine", "model"), 2
        )
        self.assertIn("line 3 is no choice", self.said)

    def test_agents_that_changed_are_told(self) -> None:
        agent = self.folder / "mine.py"
        agent.write_text(
            (AGENTS / "ring.py").read_text(encoding="utf-8"), encoding="utf-8"
        )
        words = [
            "run",
            "--engine",
            "model",
            "--agent",
            f"{agent} 8",
            "--keep",
            self.folder / "kept",
        ]
        self.assertEqual(self.command(*words), 0)
        agent.write_text(agent.read_text(encoding="utf-8") + "\n", encoding="utf-8")
        self.assertEqual(
            self.command("replay", self.folder / "kept", "--engine", "model"), 1
        )
        self.assertIn("is another file than when the schedule was made", self.said)

    def test_each_change_of_what_was_kept_is_told(self) -> None:
        kept_folder = self.folder / "kept"
        words = [
            "run",
            "--engine",
            "model",
            "--agent",
            RING.words,
            "--hole",
            "4",
            "--keep",
            kept_folder,
        ]
        self.assertEqual(self.command(*words), 0)
        for file, old, new, status, message in CHANGES:
            with self.subTest(file, new=new):
                text = (kept_folder / file).read_text(encoding="utf-8")
                self.assertRegex(text, old)
                (kept_folder / file).write_text(
                    re.sub(old, new, text, count=1), encoding="utf-8"
                )
                self.assertEqual(
                    self.command("replay", kept_folder, "--engine", "model"), status
                )
                self.assertIn(message, self.said)
                (kept_folder / file).write_text(text, encoding="utf-8")
        self.assertEqual(self.command("replay", kept_folder, "--engine", "model"), 0)
