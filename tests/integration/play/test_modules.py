"""WebAssembly modules as agents: they play as programs, and `arena explore --module`
tries every schedule of them."""
import csv
import hashlib
import re
import shutil
import unittest
from typing import List, Tuple
from unittest import mock

from arena_lab import api
from arena_lab.__main__ import main
from arena_lab.play import schedulers, wasm_modules
from arena_lab.play.agent_files import AgentError
from arena_lab.play.programs import command_of
from arena_lab.play.teams import INSIDE, OUTSIDE, AgentWords, agent_named
from arena_lab.rules.fixtures import fixture_of
from arena_lab.rules.model import Setup
from arena_lab.rules.networks import ring
from arena_lab.search.history_tree import NoFunctionError
from arena_lab.search.match_results import unkept
from arena_lab.support import built
from tests.support.matches import AGENTS, InFolder, program
from tests.support.output import run_call
from tests.support.sample_modules import (
    LEAVER,
    MODULE,
    SLEEPER,
    WALKER,
    play_by_stand_in,
)

RING = AGENTS / "wasm" / "ring.wasm"
SWEEP = f"""
title = "Modules"
networks = ["ring:4"]
holes = "all"

[[team]]
name = "module"
agent = "{MODULE.words}"

[[team]]
name = "python"
agent = "{AGENTS / 'ring.py'} {{nodes}}"
"""
COURSE = f"""
title = "Modules"
networks = ["ring:4"]
holes = 2

[[team]]
name = "amber"
files = ["{RING}"]
command = "ring.wasm:{{nodes}}"

[[team]]
name = "blue"
files = ["{RING}"]
command = "ring.wasm:{{nodes}}0"

[[team]]
name = "cyan"
files = ["{AGENTS / 'ring.py'}"]
command = "ring.wasm:{{nodes}}"
"""


def digest(file: bytes) -> str:
    return hashlib.sha256(file).hexdigest()


class Modules(InFolder):
    def setUp(self) -> None:
        super().setUp()
        play_by_stand_in(self, self.folder)

    def command(self, *words: object) -> Tuple[int, str]:
        """Returns the status and the output of a command."""
        status, output, errors = run_call(main, [*map(str, words)])
        return status, output + errors

    def explore(self, *words: object) -> Tuple[int, List[str]]:
        """Returns the status of an exploration, and its output without times."""
        status, output = self.command(
            "explore",
            "--board",
            48,
            "--program",
            program(),
            "--keep",
            self.folder / "find",
            *words,
        )
        return (
            status,
            re.sub(r"\d+\.\d( s|$)", r"_\1", output, flags=re.MULTILINE).splitlines(),
        )

    def test_whatever_names_a_module_it_is_a_program(self) -> None:
        for words in ("a.wasm", "a.wasm:8", "'a b.wasm:8,9'", "x/a.wasm:{nodes}"):
            self.assertEqual(agent_named(INSIDE, words), AgentWords(OUTSIDE, words))
            self.assertTrue(agent_named(OUTSIDE, words).is_module())
        for words in (
            "a.py",
            "a.py 8",
            "a.wasm 8",
            "python3 a.wasm",
            "",
            "'a.wasm",
            "wasm:8",
        ):
            self.assertEqual(agent_named(INSIDE, words), AgentWords(INSIDE, words))
            self.assertFalse(wasm_modules.is_module(words))

    def test_the_player_is_told_the_match_and_the_arguments(self) -> None:
        fixture = fixture_of(Setup(5, ring(5).links, 0, [2], 2, 100, 48, []))
        words = command_of("'a b.wasm:{nodes},3'", fixture, 1, {})
        self.assertEqual(
            words[1:],
            [
                "127.0.0.1",
                "{port}",
                fixture.keys[1],
                "--spurious-wakeups",
                "4294967295",
                "--module",
                "a b.wasm:5,3",
            ],
        )
        self.assertEqual(
            wasm_modules.word_of("a.wasm:{links},3", fixture.setup),
            f"{self.folder.cwd() / 'a.wasm'}:5,3",
        )
        with self.assertRaisesRegex(AgentError, "behind the colon"):
            wasm_modules.word_of("a.wasm:{key}", fixture.setup)

    def test_it_plays_as_the_same_search_in_python(self) -> None:
        rows = [
            [
                (row["moves"], row["lost"], row["outcome"])
                for row in api.play("ring:6", agent, "slow-agents", 6, board=48)
            ]
            for agent in (MODULE.words, f"{AGENTS / 'ring.py'} {{nodes}}")
        ]
        self.assertEqual(rows[0], rows[1])
        self.assertEqual({row[2] for row in rows[0]}, {"solved"})
        for option in ("--agent", "--command"):
            status, output = self.command(
                "run",
                "--network",
                "ring:5",
                option,
                MODULE.words,
                "--engine",
                "model",
                "--runs",
                2,
                "--repeat",
            )
            self.assertEqual(
                (status, output.splitlines()[0]), (0, "2 schedules: solved 2; failed 0")
            )

    def test_a_file_that_is_none_fails(self) -> None:
        (self.folder / "a.wasm").write_text("no module")
        for name, why in (
            ("a.wasm", "a.wasm: head at byte 0"),
            ("b.wasm", "No such file"),
        ):
            status, output = self.command(
                "run",
                "--network",
                "ring:4",
                "--agent",
                self.folder / name,
                "--engine",
                "model",
                "--keep",
                self.folder / "find",
            )
            self.assertEqual(status, 1)
            self.assertRegex(
                output, f"has ended with status 1 before it connected: .*{why}"
            )

    def test_it_is_hunted_checked_and_swept(self) -> None:
        status, output = self.command(
            "hunt",
            "--network",
            "ring:4",
            "--agent",
            f"{RING}:5",
            "--engine",
            "model",
            "--runs",
            20,
            "--keep",
            self.folder / "find",
            "--database",
            self.folder / "hunted",
        )
        self.assertEqual(status, 1, output)
        self.assertIn(": the team fails", output)
        status, output = self.command(
            "check",
            MODULE.words,
            "--network",
            "ring:4",
            "--program",
            program(),
        )
        self.assertEqual(status, 0, output)
        # an unproved program skips this step and says so
        self.assertIn("every schedule of a ring of 4 with 16 numberings", output)
        (self.folder / "sweep.toml").write_text(SWEEP)
        status, output = self.command(
            "sweep",
            self.folder / "sweep.toml",
            "--out",
            self.folder / "out",
            "--program",
            program(),
            "--explore",
            1000,
        )
        self.assertEqual(status, 0, output)
        with (self.folder / "out" / "runs.csv").open() as file:
            moves = {
                (row["team"], row["hole"]): row["moves"] for row in csv.DictReader(file)
            }
        self.assertEqual(
            [moves["module", str(hole)] for hole in (1, 2, 3)],
            [moves["python", str(hole)] for hole in (1, 2, 3)],
        )
        self.assertIn("every schedule of 6 matches", output)

    def test_a_course_grades_it(self) -> None:
        (self.folder / "course.toml").write_text(COURSE)
        status, output = self.command(
            "grade",
            self.folder / "course.toml",
            "--out",
            self.folder / "out",
            "--engine",
            "model",
        )
        self.assertEqual(status, 0, output)
        for name, solved_count in (("amber", 2), ("blue", 0), ("cyan", 0)):
            self.assertRegex(output, rf"{name} +{solved_count} of 2 ")
        with (self.folder / "out" / "runs.csv").open() as file:
            faults = {row["team"]: row["fault"] for row in csv.DictReader(file)}
        self.assertRegex(faults["cyan"], "before it connected: .*No such file")
        self.assertNotIn("not proved", "".join(faults.values()))

    def test_every_schedule_is_tried_by_the_program_alone(self) -> None:
        words = ["--network", "ring:3..4", "--agent", MODULE.words]
        status, output = self.explore(*words)
        self.assertEqual(status, 0, output)
        self.assertIn(
            "home 0 holes [2]: 91 states, every schedule solves, most moves 9, _ s",
            output,
        )
        self.assertRegex(
            "\n".join(output),
            "(?m)^151 states in _ s: every schedule solves, by memories of the module "
            "with the SHA-256 3191ff3430cd[0-9a-f]{52}(, .*)?; the program ran the module itself$",
        )
        self.assertEqual(self.explore(*words, "--workers", 2), (status, output))
        self.assertTrue(
            api.explore("ring:4", MODULE.words, board=48, engine=program()).solves
        )

    def test_each_agent_may_run_a_module_of_its_own(self) -> None:
        leaver = self.folder / "leaver.wasm"
        walker = self.folder / "walker.wasm"
        leaver.write_bytes(LEAVER)
        walker.write_bytes(WALKER)
        first = "by memories of the module with the SHA-256 {}"
        two = "by memories of the modules with the SHA-256 {}, {}"
        for agents, moves, by in (
            ((walker, leaver), 1, two.format(*map(digest, (WALKER, LEAVER)))),
            ((leaver, walker), 1, two.format(*map(digest, (LEAVER, WALKER)))),
            (
                (MODULE.words, f"{MODULE.words},0"),
                4,
                first.format(digest(RING.read_bytes())),
            ),
        ):
            words = [it for agent in agents for it in ("--agent", agent)]
            status, output = self.explore("--network", "ring:3", "--hole", 2, *words)
            self.assertEqual(status, 0, output)
            self.assertIn(f"every schedule solves, most moves {moves}, ", output[0])
            self.assertIn(f"every schedule solves, {by}", output[1])

    def test_a_schedule_that_fails_is_played_again(self) -> None:
        status, output = self.explore("--network", "ring:4", "--agent", f"{RING}:5")
        self.assertEqual(
            (status, output[0]),
            (1, "home 0 holes [1]: 21 states, a schedule fails, its moves 12, _ s"),
        )
        self.assertTrue((self.folder / "find" / "schedule.txt").exists())

    def test_a_schedule_in_which_a_module_sleeps_is_told(self) -> None:
        """Its player looks again by the clock, so it takes no turn to wake."""
        path = self.folder / "sleeper.wasm"
        path.write_bytes(SLEEPER)
        words = ["--network", "ring:3", "--hole", 1, "--agents", 1, "--agent", path]
        message = unkept([0, 0, 0])
        for extra in ([], ["--draws", 1]):
            status, output = self.explore(*words, *extra)
            self.assertEqual((status, output[-1]), (1, message))
        with self.assertRaisesRegex(NoFunctionError, f"a schedule fails; {message}"):
            api.explore("ring:3", str(path), count=1, holes=[1], engine=program())

    def test_schedules_are_drawn_too(self) -> None:
        status, output = self.explore(
            "--network", "ring:4", "--hole", 2, "--agent", MODULE.words, "--draws", 10
        )
        self.assertEqual(status, 0, output)
        self.assertRegex(output[0], "10 solved, 0 failed")

    def test_what_the_program_says_against_a_module(self) -> None:
        shutil.copy(AGENTS / "ring.py", self.folder / "a.wasm")
        status, output = self.explore(
            "--network", "ring:3", "--agent", self.folder / "a.wasm"
        )
        text = f"{self.folder / 'a.wasm'}: head at byte 0"
        self.assertEqual(
            (status, output[-1]), (3, f"{text}: {wasm_modules.ADVICE['head']}")
        )
        status, output = self.explore(
            "--network",
            "ring:4",
            "--hole",
            2,
            "--agent",
            MODULE.words,
            "--max-states",
            9,
        )
        self.assertEqual(
            (status, output[0]),
            (130, "home 0 holes [2]: more states than were to be visited, _ s"),
        )
        status, output = self.explore(
            "--network", "ring:4", "--agent", MODULE.words, "--search", "model"
        )
        self.assertEqual(status, 2)
        self.assertIn("plays Python agents inside the lab", output[-1])


PLAYER = built.PLAYER.proved_path


@unittest.skipUnless(
    PLAYER.exists() and b"--module" in PLAYER.read_bytes(),
    "no player is built: `rt ci` builds it",
)
class ByPlayer(unittest.TestCase):
    def test_the_sample_module_says_what_the_same_search_in_python_says(self) -> None:
        self.enterContext(mock.patch.object(built, "player", lambda: PLAYER))
        for scheduler in sorted(schedulers.SCHEDULER_MAKERS):
            for network in ("ring:3", "ring:8"):
                results = [
                    [
                        row.match().match.replay
                        for row in api.play(network, agent, scheduler, 3, board=48)
                    ]
                    for agent in (MODULE.words, f"{AGENTS / 'ring.py'} {{nodes}}")
                ]
                with self.subTest(scheduler, network=network):
                    self.assertEqual(results[0], results[1])
