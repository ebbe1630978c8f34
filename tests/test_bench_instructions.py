"""Checks the inputs of the instruction counts, and the counting."""
import contextlib
import io
import json
import tomllib
import unittest
import unittest.mock

from arena_lab.rules.model import judge, replay_match
from bench import instructions
from tests.support.output import InTemporary, run_call, write


class Inputs(InTemporary):
    def plays(self, play: instructions.Play, events: int, verdict: str) -> None:
        """A replay of version 1 has the events of its match, and a node that nobody
        reaches."""
        head, *lines = instructions.replay(play, 3)
        values = json.loads(head)
        self.assertEqual((values.pop("replay"), len(lines)), (1, events + 1))
        second = json.dumps(
            {**values, "replay": 2, "dark": [], "holes": [values.pop("hole")]}
        )
        match = replay_match("".join([second + "\n", *lines]))
        self.assertEqual(match.replay().split("\n")[1:], "".join(lines).split("\n"))
        self.assertEqual(str(judge(match)), verdict)
        self.assertNotIn(instructions.TWIN, match.reached)

    def test_replays(self) -> None:
        self.plays(
            instructions.moves, 16 + 3 * 2 * 16 + 16 + 1, "silent moves 48 lost 0"
        )
        self.plays(
            instructions.texts, 16 + 1 + 2 * 16 + 16 + 1, "silent moves 0 lost 0"
        )

    def test_small_inputs(self) -> None:
        works = instructions.write_inputs(self.folder, instructions.SMALL)
        self.assertEqual(len({work.title for work in works}), 8)
        for work in works:
            self.assertTrue(
                (self.folder / work.source).exists()
                and (self.folder / work.words[1]).exists()
            )
        self.assertGreater((self.folder / "script").read_text().count("\n"), 3000)


class Counts(InTemporary):
    def write_script(self, name: str, text: str) -> str:
        """A script in the place of a program."""
        return str(write(self.folder / name, f"#!/bin/sh\n{text}\n", 0o700))

    def compare(self, text: str) -> str:
        """What is printed of two programs, with this script in the place of
        valgrind."""
        programs = [
            self.write_script("one", "exit"),
            "--peer",
            self.write_script("two", "exit"),
        ]
        with unittest.mock.patch.object(
            instructions, "VALGRIND", self.write_script("valgrind", text)
        ), contextlib.redirect_stdout(io.StringIO()) as message:
            instructions.main([*programs, "--small"])
        return message.getvalue()

    def test_a_table_has_the_counts_and_ratios(self) -> None:
        counts = "case $3 in *two) count=1000000;; *) count=2500000;; esac"
        lines = self.compare(f"{counts}; echo ==7== Collected : $count >&2").split("\n")
        self.assertEqual(
            lines[:2],
            [
                "| millions of instructions | program | peer | ratio |",
                "| --- | --- | --- | --- |",
            ],
        )
        self.assertEqual(lines[-2], "| `twin`, texts | 2.5 | 1.0 | 2.50 |")

    def test_what_takes_more_than_is_kept_fails(self) -> None:
        self.assertEqual(
            instructions.risen({"a": 1.03, "b": 2.0}, {"a": 1.0, "b": 2.5, "c": 1.0}),
            [],
        )
        wrong = instructions.risen({"a": 1.04, "new": 0.1}, {"a": 1.0})
        self.assertEqual([line.partition(" takes ")[0] for line in wrong], ["a", "new"])

    def test_each_run_is_compared_with_what_is_kept(self) -> None:
        titles = list(tomllib.loads(instructions.RECORD_FILE.read_text()))
        kept_folder = self.folder / "kept.toml"
        valgrind = self.write_script("valgrind", "echo ==7== Collected : 2000000 >&2")
        for number, last in ((2, "8 passed, 0 failed"), (1, "0 passed, 8 failed")):
            kept_folder.write_text(
                "".join(f'"{title}" = {number}\n' for title in titles)
            )
            with unittest.mock.patch.multiple(
                instructions, RECORD_FILE=kept_folder, VALGRIND=valgrind
            ):
                status, output, _ = run_call(
                    instructions.main, [self.write_script("one", "exit"), "--kept"]
                )
                self.assertEqual(status, number == 1)
            self.assertEqual(output.splitlines()[-1], last)

    def test_a_program_that_fails_ends_it(self) -> None:
        for message in ("exit 6", "echo nothing"):
            with self.assertRaisesRegex(SystemExit, "rehearse t.toml: status"):
                self.compare(message)

    def test_without_valgrind_it_says_what_to_install(self) -> None:
        with unittest.mock.patch.object(instructions, "VALGRIND", "no-such-command"):
            with self.assertRaisesRegex(SystemExit, "valgrind is missing"):
                instructions.main([self.write_script("one", "exit")])
