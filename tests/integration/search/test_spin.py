"""The model checker SPIN finds the same most moves of all schedules as `./arena-lab
explore`, and finds a mistake.

The models in bench/models were written by hand and share nothing with the program and
the lab.
"""
import unittest
from unittest import mock

import arena_lab.api
from bench import explore, promela, spin as bench_spin
from tests.support.matches import RING_STEP, program


@unittest.skipUnless(
    promela.HAS_SPIN, "Debian's spin is not installed, or there is no C compiler"
)
class TestSpin(unittest.TestCase):
    def test_spin_finds_the_same_most_moves(self) -> None:
        for nodes in range(3, 10):
            proof = arena_lab.api.explore(
                f"ring:{nodes}", RING_STEP.words, engine=program(), check=0
            )
            self.assertTrue(proof.solves)
            for model in (promela.NATURAL, promela.MERGED_MODEL):
                with self.subTest(nodes=nodes, model=model.name):
                    result = promela.search(model, nodes)
                    self.assertEqual(0, result.errors)
                    self.assertEqual(
                        max(row["moves"] for row in proof.rows), result.moves
                    )

    def test_several_processes_find_the_same_most_moves(self) -> None:
        for model in (promela.NATURAL, promela.MERGED_MODEL):
            with self.subTest(model.name):
                first = promela.search(model, 8)
                extra = promela.search(model, 8, processors=3)
                self.assertEqual((first.moves, 0), (extra.moves, extra.errors))
                self.assertGreaterEqual(extra.states, first.states)

    def test_spin_finds_a_mistake(self) -> None:
        """Without reading again before its write, an agent overwrites the other's
        message."""
        source = (promela.MODELS / "ring_merged.pml").read_text(encoding="utf-8")
        unchanged_value = "#define IS_UNCHANGED (right_seen == right_mark[node] && left_seen == left_mark[node])"
        self.assertIn(unchanged_value, source)
        blind = source.replace(unchanged_value, "#define IS_UNCHANGED true")
        for processors in (1, 3):
            result = promela.search(promela.MERGED_MODEL, 6, blind, processors)
            self.assertNotEqual(0, result.errors)

    def test_the_benchmark_compares_them(self) -> None:
        with mock.patch.object(explore, "PROGRAM", program()):
            rows = bench_spin.rows_of(5, 2)
        names = [
            "SPIN, natural",
            "SPIN, natural, on 2",
            "SPIN, merged",
            "SPIN, merged, on 2",
            "./arena-lab explore",
            "arena explore alone",
            "arena explore --module",
            "arena explore --module, 2 at a time",
        ]
        self.assertEqual(names, [row.name for row in rows])
        self.assertEqual(1, len({row.moves for row in rows}))
