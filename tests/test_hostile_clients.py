"""The attack by hostile clients, on the stand-in, and what its checks find."""
import io
import os
import pathlib
import socket
import sys
import tempfile
import unittest
from unittest import mock

from arena_lab.rules.model import Match, Setup
from tests.hostile import hostile_clients
from tests.hostile.hostile_attacks import (
    ATTACKS,
    Sizes,
    FailedCheckError,
    has_heard,
    hear,
    hear_end,
    wait_for_lines,
)
from tests.hostile.hostile_clients import (
    LEAST_SESSIONS,
    Ending,
    check_end,
    check_memory,
    check_replays,
    check_table,
    match_of,
)
from tests.support.output import InTemporary, run_call

STAND_IN = f"{sys.executable} -m arena_lab"
SMALL = Sizes(
    LEAST_SESSIONS,
    turns=180,
    between_bytes=0.02,
    between_steps=0.02,
    still=0.1,
    flood=2**17,
)
CHECKS = 7


@unittest.skipUnless("BY_THE_CLOCK" in os.environ, "goes by the clock")
class Attacks(unittest.TestCase):
    def test_the_stand_in_stands_them(self) -> None:
        for attacks in ATTACKS.values():
            output = io.StringIO()
            with tempfile.TemporaryDirectory() as name, mock.patch.dict(
                os.environ, ARENA=STAND_IN
            ):
                results, output, _ = run_call(
                    hostile_clients.besiege, SMALL, attacks, pathlib.Path(name)
                )
            self.assertEqual(results.failed, 0, output)
            self.assertEqual(results.count, len(attacks) + CHECKS)
            self.assertEqual(output.count("\n"), results.count)


class Hearing(unittest.TestCase):
    def setUp(self) -> None:
        self.client, self.server = socket.socketpair()
        self.addCleanup(self.client.close)
        self.addCleanup(self.server.close)
        self.client.settimeout(0.05)

    def test_lines_are_left_unread_and_then_heard(self) -> None:
        self.assertFalse(has_heard(self.client))
        self.server.sendall(b"one\ntwo\n")
        wait_for_lines(self.client, 2)
        self.assertTrue(has_heard(self.client))
        hear(self.client, b"one\n")
        self.assertRaises(FailedCheckError, hear, self.client, b"one\n")

    def test_silence_and_the_end_are_told_apart(self) -> None:
        self.assertRaises(FailedCheckError, hear, self.client, b"one\n")
        self.assertRaises(FailedCheckError, hear_end, self.client)
        self.server.close()
        hear_end(self.client)
        self.assertRaises(FailedCheckError, hear, self.client, b"one\n")

    def test_an_answer_that_is_late_is_wrong(self) -> None:
        self.server.sendall(b"one\n")
        self.assertRaises(FailedCheckError, hear, self.client, b"one\n", -1.0)


class Checks(InTemporary):
    ENDING = Ending(True, 0, 1.0, 1000, "")

    def test_the_end(self) -> None:
        check_end(self.ENDING)
        self.assertRaises(FailedCheckError, check_end, self.ENDING._replace(status=-9))
        self.assertRaises(
            FailedCheckError, check_end, self.ENDING._replace(is_over=False)
        )

    def test_memory_is_bounded_by_the_sessions(self) -> None:
        bound = 64 * 1024 + 96 * 100
        sizes = Sizes(sessions=100)
        check_memory(self.ENDING._replace(peak=bound), sizes)
        self.assertRaises(
            FailedCheckError, check_memory, self.ENDING._replace(peak=bound + 1), sizes
        )

    def test_replays_and_the_table(self) -> None:
        match = Match(
            Setup(3, [(0, 0, 1, 0), (1, 1, 2, 0), (2, 1, 0, 1)], 0, [2], 2, 10, 8)
        )
        match.reply_to(0, {"do": "enter"})
        match.close()
        for number, text in enumerate(
            (match.replay(), match.replay().replace('"ports":2', '"ports":3'), "{}\n")
        ):
            (self.folder / f"match{number}.jsonl").write_text(text)
        results = [match_of(self.folder, 0)]
        for number in (1, 2, 3):
            self.assertRaises(FailedCheckError, match_of, self.folder, number)
        self.assertEqual(check_replays(results), "1 of 2 events")
        row = "  1 team-0           silent          0    0\n"
        check_table("  # team             outcome     moves lost\n" + row, results)
        self.assertRaises(FailedCheckError, check_table, row, results)
