"""The replays that the benchmarks write."""
import io
import unittest
from typing import Iterator

from tests import TOP, needs
from bench import replays
from arena_lab.rules.limits import MAX_LINE
from arena_lab.rules.model import judge, replay_match
from tests.support.output import InTemporary, run_call, write


class LargeReplays(unittest.TestCase):
    """What bench/replays.py writes are replays: each event is kept, with its reply."""

    def plays(self, kind: replays.Kind, commands: int) -> None:
        out = io.StringIO()
        count = replays.write_replay(
            out, kind.hole(commands), kind.events(commands), kind.board
        )
        match = replay_match(out.getvalue())
        self.assertEqual(match.replay(), out.getvalue())
        self.assertEqual(judge(match), ("silent", kind.moves(commands), kind.lost))
        self.assertEqual(count, len(match.log))

    def test_each_kind(self) -> None:
        for kind in replays.KINDS:
            with self.subTest(kind=kind.title):
                self.plays(kind, 3)

    def test_the_largest_log(self) -> None:
        """It has this many events, of which FIGURES speaks: counted with a small
        quota."""
        self.assertEqual(
            sum(1 for _ in replays.moves(9)) + 1, replays.events_at_most(9)
        )
        self.assertEqual(
            [
                replays.events_at_most(kind.commands)
                for kind in replays.KINDS
                if kind.events == replays.moves
            ],
            [128_129, 8_388_609],
        )
        text = (TOP / "bench" / "FIGURES.md").read_text(encoding="utf-8")
        self.assertTrue(
            "8,388,609 events at most" in text and "128,129 events at most" not in text
        )

    def test_the_longest_line(self) -> None:
        lines: Iterator[dict] = replays.long_lines(1)
        write = next(event for event in lines if event["do"] == "write")
        payload = {name: write[name] for name in ("do", "expect", "put")}
        self.assertEqual(len(replays.spell(payload)), MAX_LINE)


@needs("cc", "gcc")
class TwoPrograms(InTemporary):
    """How two programs are compared."""

    KIND = replays.Kind(
        "none", lambda commands: iter(()), 1, lambda _: 1, lambda _: 0, 0
    )

    def setUp(self) -> None:
        super().setUp()
        (self.folder / "empty").write_text("")

    def program(self, name: str, twin: str) -> str:
        text = f'#!/bin/sh\nif [ "$1" = twin ]; then {twin}; else echo silent moves 0 lost 0; fi\n'
        return str(write(self.folder / name, text, 0o755))

    def compare(self, twin: str) -> "tuple[bool, str]":
        programs = [self.program("one", "echo twin"), self.program("two", twin)]
        right, output, _ = run_call(replays.beside, programs, self.KIND, 2, self.folder)
        return right, output

    def test_programs_that_print_the_same(self) -> None:
        right, message = self.compare("echo twin")
        self.assertTrue(right)
        for word in ("judge", "table", "explain", "twin"):
            self.assertRegex(
                message,
                rf"  {word}: .* ms, .* ms, ratio .*; processor .*, ratio .*; peak .* KiB, .* KiB",
            )

    def test_programs_that_do_not(self) -> None:
        right, message = self.compare("echo other")
        self.assertFalse(right)
        self.assertIn("  twin: the programs do not print the same\n", message)

    def test_words(self) -> None:
        args = replays.given_words(["one", "two", "--rounds", "5"])
        self.assertEqual(
            (str(args.program), str(args.other), args.rounds), ("one", "two", 5)
        )
        self.assertEqual(replays.given_words([]).program, replays.PROGRAM)
