"""Processes that play matches end, whatever they wait for."""
import multiprocessing
import signal
import unittest
from typing import Any
from unittest import mock

from arena_lab.play import parallel


def deaf(is_ready: Any) -> None:
    """Ignores SIGTERM."""
    signal.signal(signal.SIGTERM, signal.SIG_IGN)
    is_ready.set()
    signal.pause()


class Ending(unittest.TestCase):
    def test_a_process_that_does_not_end_by_being_asked_is_ended(self) -> None:
        is_ready = multiprocessing.Event()
        process = multiprocessing.Process(target=deaf, args=(is_ready,))
        process.start()
        self.assertTrue(is_ready.wait(20))
        with mock.patch.object(parallel, "SECONDS_TO_END", 0.2):
            parallel.end_all([process])
        process.join(20)
        self.assertEqual(process.exitcode, -signal.SIGKILL)
