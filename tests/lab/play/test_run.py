"""The words of `run`, and what is worth most of the matches that were played."""
import argparse
import contextlib
import io
import unittest
from typing import Any, Dict
from unittest import mock

from arena_lab.commands import run as command
from arena_lab.commands.run import Tally, rank, report, seeds


def row(**extra: Any) -> Dict[str, Any]:
    return {"outcome": "solved", "failed": False, "moves": 5, "choices": 9, **extra}


class Rows(unittest.TestCase):
    def test_what_agents_print_is_no_row(self) -> None:
        def prints(*_: Any) -> Any:
            print("not a row")
            yield mock.Mock(line=lambda: "a row")

        stream = io.StringIO()
        message = io.StringIO()
        words = argparse.Namespace(
            json=True,
            seeds=None,
            seed=0,
            runs=1,
            scheduler="fair",
            repeat=False,
            workers=1,
        )
        with contextlib.redirect_stdout(stream), contextlib.redirect_stderr(
            message
        ), mock.patch.object(command, "program_of"), mock.patch.object(
            command, "game_of"
        ), mock.patch.object(
            command.games, "rows_of", prints
        ), mock.patch.object(
            command, "Tally", mock.Mock(return_value=mock.Mock(best=None))
        ):
            command.run(words)
        self.assertEqual(
            (stream.getvalue(), message.getvalue()), ("a row\n", "not a row\n")
        )


class Words(unittest.TestCase):
    def test_seeds(self) -> None:
        self.assertEqual(list(seeds("3:6")), [3, 4, 5])
        self.assertEqual(list(seeds("-2:0")), [-2, -1])
        for wrong in ("3", "3:3", "4:3", "a:b", "1:2:3", ""):
            with self.assertRaisesRegex(
                argparse.ArgumentTypeError, "write A:B for those from A up to B"
            ):
                seeds(wrong)


class Tallies(unittest.TestCase):
    def test_the_most_moves_or_the_shortest_failure(self) -> None:
        tally: Any = Tally()
        for arguments in (
            row(),
            row(moves=7),
            row(moves=6),
            row(failed=True, outcome="guess 1", choices=20),
        ):
            tally.add(arguments)
        self.assertEqual(tally.outcomes, {"solved": 3, "guess": 1})
        self.assertEqual((tally.failed, tally.best["choices"]), (1, 20))
        tally.add(row(failed=True, choices=8))
        self.assertEqual(tally.best["choices"], 8)
        self.assertGreater(rank(row(moves=7)), rank(row()))  # type: ignore[arg-type]

    def test_networks_that_are_solved_while_an_agent_fails(self) -> None:
        """Reports that sixty matches count both as solved and as failed, because an
        agent fails in each."""
        tally = Tally()
        stream = io.StringIO()
        for _ in range(60):
            tally.add(row(failed=True, seed=0, home=0, holes=[1]))  # type: ignore[arg-type]
        best: Any = mock.Mock()
        best.match().report.return_value = []
        best.match().faults.return_value = []
        best.match().match.refusals = []
        best.__getitem__ = mock.Mock(return_value=0)
        report(tally, best, None, stream)
        self.assertIn(
            "60 schedules: solved 60; failed 60, of which 60 solved, but an agent failed\n",
            stream.getvalue(),
        )
