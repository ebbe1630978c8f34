"""The process that forks trials, without a hall: what trials share is known for a while."""
import json
import os
import signal
import unittest
from typing import Any, List
from unittest import mock

from arena_lab.course import trials


class Worker:
    """A worker that asks for two trials and ends."""

    def __init__(self) -> None:
        conditions = json.dumps({"folder": "/nowhere", "temporary": "/nowhere"})
        self.messages: List[bytes] = [conditions.encode(), conditions.encode(), b""]

    def recv(self, _: int) -> bytes:
        return self.messages.pop(0)


class Trials(unittest.TestCase):
    def forgot(self, facts: float) -> int:
        """Returns how often it forgets where the system has pipes, if that is known so
        long."""
        self.addCleanup(signal.signal, signal.SIGCHLD, signal.SIG_DFL)
        worker: Any = Worker()
        with mock.patch.multiple(
            trials,
            SURVEY_SECONDS=facts,
            share=mock.DEFAULT,
            read_request=mock.DEFAULT,
            gc=mock.DEFAULT,
        ), mock.patch.object(
            trials.os, "fork", return_value=os.getpid()
        ), mock.patch.object(
            trials.socket, "send_fds"
        ) as payload, mock.patch.object(
            trials.isolation, "meeting_places"
        ) as places:
            trials.TrialServer(worker).serve()
        self.assertEqual(payload.call_count, 2)
        self.assertEqual(worker.messages, [])
        return int(places.cache_clear.call_count)

    def test_pipes_and_sockets_are_looked_for_again(self) -> None:
        self.assertEqual(self.forgot(3600), 0)
        self.assertEqual(self.forgot(-1), 2)

    def test_what_cannot_be_shared_is_left_to_the_trial(self) -> None:
        fault = trials.isolation.CellError("no filter")
        with mock.patch.object(trials.isolation, "system_filter", side_effect=fault):
            trials.share(trials.DEFAULT_COMMAND)


if __name__ == "__main__":
    unittest.main()
