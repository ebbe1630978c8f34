"""The command line of the lab: helps, and words that are refused with what to write."""
import contextlib
from unittest import mock

from arena_lab.__main__ import COMMANDS, main
from arena_lab.rules.engines import TOP
from tests.support.output import InTemporary, run_call


class CommandLine(InTemporary):
    def refusal(self, *words: str) -> str:
        """What a command line that is refused says."""
        status, _, errors = run_call(main, list(words))
        self.assertEqual(status, 2)
        return str(errors)

    def test_a_program_that_is_missing_is_told_with_what_to_do(self) -> None:
        output = self.refusal("page", "match0.jsonl", "--program", "/nowhere")
        self.assertEqual(
            output,
            "arena-lab: /nowhere: there is no such program: name another by --program; by default the "
            "lab takes the one that `./arena` runs; or add `--engine model`: the Python model needs none, "
            "and nothing of it is proved\n",
        )

    def test_words_that_name_nothing(self) -> None:
        agent = ["--engine", "model", "--agent", "examples/agents/ring.py {nodes}"]
        for words, message in (
            (["run", "--engine", "model"], "name a team"),
            (["run", *agent, "--network", "star:3"], "a network is ring:N"),
            (
                ["run", *agent, "--scheduler", "unfair"],
                "there is no such scheduler; there are fair",
            ),
            (
                ["run", *agent, "--hole", "0"],
                "black holes are nodes from 0 to 7 other than the home",
            ),
            (
                ["run", "--engine", "model", "--agent", "nowhere.py"],
                "there is no such file",
            ),
            (
                ["run", "--engine", "model", "--agent", "examples/agents/ring.py x"],
                "are whole numbers",
            ),
            (
                ["replay", "/nowhere", "--engine", "model"],
                "there is no such file or folder",
            ),
            (
                ["explore", "--engine", "model", "--command", "x"],
                "name them by --agent",
            ),
        ):
            with self.subTest(words), contextlib.chdir(TOP):
                with mock.patch("arena_lab.support.progress.bar", mock.MagicMock()):
                    self.assertIn(message, self.refusal(*words))

    def test_each_command_has_a_help(self) -> None:
        for name in COMMANDS:
            status, output, _ = run_call(main, [name, "--help"])
            self.assertEqual((status, "exit status" in output), (0, True), name)
