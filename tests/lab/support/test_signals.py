"""Signals that end the lab are not lost, wherever Python is when they come."""
import functools
import os
import signal
import sys
import threading
import time
import unittest
import weakref
from typing import Any, Dict, List
from unittest import mock

from arena_lab.support.signals import TerminatedError, come_again, end


class Signals(unittest.TestCase):
    def test_a_signal_is_not_lost_where_python_drops_what_is_raised(self) -> None:
        class Forgotten:
            """Nobody keeps it."""

        class Told(Dict[object, int]):
            def __delitem__(self, key: object) -> None:
                os.kill(os.getpid(), signal.SIGINT)

        def forks() -> None:
            if os.fork() == 0:
                os._exit(0)
            time.sleep(9)

        def forgets() -> None:
            held_links[Forgotten()] = 1
            time.sleep(9)

        held_links: "weakref.WeakKeyDictionary[Forgotten, int]" = (
            weakref.WeakKeyDictionary()
        )
        held_links.data = Told()
        payload = [signal.SIGTERM]
        os.register_at_fork(
            after_in_parent=lambda: payload and os.kill(os.getpid(), payload.pop())
        )
        self.enterContext(mock.patch.object(sys, "unraisablehook", come_again))
        for number, does, error in (
            (signal.SIGINT, forgets, KeyboardInterrupt),
            (signal.SIGTERM, forks, TerminatedError),
        ):
            handler = functools.partial(end, os.getpid())
            self.addCleanup(signal.signal, number, signal.signal(number, handler))
            with self.subTest(number), self.assertRaises(error):
                does()

    def test_a_signal_is_not_lost_that_falls_into_its_coming_again(self) -> None:
        class Forgotten:
            """Nobody keeps it."""

        def interrupts(thread: threading.Thread) -> None:
            os.kill(os.getpid(), signal.SIGINT)
            starts(thread)

        def forgets() -> None:
            references.append(
                weakref.ref(Forgotten(), lambda _: os.kill(os.getpid(), signal.SIGINT))
            )
            time.sleep(9)

        references: List[Any] = []
        starts = threading.Thread.start
        self.enterContext(mock.patch.object(sys, "unraisablehook", come_again))
        self.enterContext(mock.patch.object(threading.Thread, "start", interrupts))
        handler = functools.partial(end, os.getpid())
        self.addCleanup(
            signal.signal, signal.SIGINT, signal.signal(signal.SIGINT, handler)
        )
        with self.assertRaises(KeyboardInterrupt):
            forgets()

    def test_a_process_that_has_just_been_forked_ends_by_a_signal(self) -> None:
        handler = functools.partial(end, os.getpid())
        self.addCleanup(
            signal.signal, signal.SIGTERM, signal.signal(signal.SIGTERM, handler)
        )
        process = os.fork()
        if process == 0:
            try:
                os.kill(os.getpid(), signal.SIGTERM)
            finally:
                os._exit(1)
        self.assertEqual(
            os.waitstatus_to_exitcode(os.waitpid(process, 0)[1]), 128 + signal.SIGTERM
        )
