"""How many states `explore` visits at most, if no number is named."""
import pathlib
import tempfile
import unittest
from typing import List, Optional
from unittest import mock

from arena_lab.__main__ import parser
from arena_lab.commands import explore
from arena_lab.search import capacity
from arena_lab.search.model_search import MAX_STATES
from arena_lab.support import memory


class Fitting(unittest.TestCase):
    def test_what_linux_says_is_left(self) -> None:
        for text, expectation in (
            ("MemTotal: 9 kB\nMemAvailable:      2048 kB\nBuffers: 7 kB\n", 2**21),
            ("MemTotal: 9 kB\n", None),
        ):
            with tempfile.TemporaryDirectory() as name:
                file = pathlib.Path(name) / "meminfo"
                file.write_text(text)
                with mock.patch.object(memory, "MEMINFO", file):
                    self.assertEqual(memory.available(), expectation)
        with mock.patch.object(memory, "MEMINFO", pathlib.Path("/no/such/file")):
            self.assertIsNone(memory.available())

    def states(self, remaining: Optional[int], *words: str) -> int:
        """The most states by these words on a machine with this much memory left."""
        conditions: List[str] = ["explore", "--agent", "ring.py", *words]
        with mock.patch.object(capacity, "available", lambda: remaining):
            return explore.states_of(parser().parse_args(conditions))

    def test_half_of_what_is_left_is_shared_by_the_matches_at_a_time(self) -> None:
        remaining = 2_000_000 * capacity.OF_PROGRAM
        self.assertEqual(self.states(remaining), 1_000_000)
        self.assertEqual(self.states(remaining, "--workers", "4"), 250_000)
        self.assertEqual(self.states(0), 1)
        self.assertEqual(self.states(2**60), 2**32 - 1)

    def test_where_memory_says_nothing(self) -> None:
        """Unknown memory, workers elsewhere, and turns of drawn schedules."""
        self.assertEqual(self.states(None), MAX_STATES)
        self.assertEqual(
            self.states(0, "--cluster", "tcp://192.0.2.7:8786"), MAX_STATES
        )
        self.assertEqual(self.states(0, "--draws", "5"), MAX_STATES)
