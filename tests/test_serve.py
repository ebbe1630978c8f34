"""The load generator and the echo server in C, and how they are driven."""
import os
import pathlib
import socket
import sys
import tempfile
import threading
import tomllib
import unittest
from unittest import mock

from tests import needs
from bench import serve
from bench.serve import Bench, Figures, Load, load_of
from tests.support.counts import FailedCheckError
from tests.support.servers import Server

STAND_IN = f"{sys.executable} -m arena_lab"


class Plans(unittest.TestCase):
    LOADS = [
        load_of(kind, mode, active, part)
        for kind in serve.KINDS
        for mode in serve.TOTALS
        for active in (1, 4, 16, 256)
        for part in (1, 10, 10_000)
    ]

    def test_loads_are_within_quotas_and_sessions(self) -> None:
        for load in self.LOADS:
            with self.subTest(load=load):
                self.assertLessEqual(load.sessions, 1024)
                self.assertEqual(load.sessions % load.active, 0)
                self.assertTrue(1 <= load.commands <= 990)
                self.assertTrue(load.kind == "moves" or load.commands % 2 == 0)

    def test_sessions_that_are_active_together_share_no_whiteboard(self) -> None:
        for load in self.LOADS:
            if load.kind != "writes":
                continue
            lines = [line.split() for line in serve.keys(load).splitlines()]
            owner = {}
            for session, (key, steps) in enumerate(lines):
                board = key.partition("-")[0], steps
                self.assertEqual(
                    owner.setdefault(board, session % load.active),
                    session % load.active,
                    load,
                )

    def test_the_largest_tournament_has_the_keys(self) -> None:
        matches = tomllib.loads(
            serve.tournament("n.toml", serve.MATCHES, serve.AGENTS, serve.BOARD)
        )["match"]
        keys = [
            line.split()[0]
            for line in serve.keys(Load("looks", "hold", 1, 1024, 1)).splitlines()
        ]
        self.assertEqual(
            sorted(keys), sorted(key for match in matches for key in match["keys"])
        )


class Rows(unittest.TestCase):
    FOUND = {
        "arena": Figures(50.0, 2.0, 3.0),
        "all": Figures(100.0, 1.0, 2.0),
        "each": Figures(25.0, 0, 0),
    }

    def test_a_row_stands_under_its_head(self) -> None:
        for mode in ("one", "many"):
            load = Load("looks", mode, 1, 2, 10)
            result = (
                self.FOUND
                if mode == "many"
                else {name: self.FOUND[name] for name in ("arena", "all")}
            )
            line = serve.row(load, result)
            self.assertEqual(
                line.split()[:7], ["looks", mode, "1", "20", "50", "100", "0.500"]
            )
            self.assertLessEqual(len(line), len(serve.HEAD))
        self.assertEqual(line.split()[7:], ["25", "2.000"])

    def test_a_ratio_is_judged(self) -> None:
        self.assertTrue(
            serve.verdict(Load("looks", "one", 1, 1, 2), self.FOUND).endswith(
                "wanted: holds"
            )
        )
        slow = {**self.FOUND, "arena": Figures(19.0, 0, 0)}
        self.assertTrue(
            serve.verdict(Load("looks", "many", 1, 1, 2), slow).endswith(
                "does not hold"
            )
        )
        self.assertIsNone(serve.verdict(Load("moves", "one", 1, 1, 2), self.FOUND))

    def test_the_median_is_taken_of_each_figure(self) -> None:
        figures = [Figures(1, 5, 9), Figures(3, 4, 8), Figures(2, 6, 7)]
        self.assertEqual(serve.median(figures), Figures(2, 5, 8))


@needs("cc", "gcc")
class Programs(unittest.TestCase):
    @classmethod
    def setUpClass(cls) -> None:
        folder = tempfile.TemporaryDirectory()
        cls.addClassCleanup(folder.cleanup)
        cls.bench = Bench.build(pathlib.Path(folder.name))

    def test_each_load_on_the_echo(self) -> None:
        for writes in ("all", "each"):
            with self.bench.echo(writes) as server:
                for kind in serve.KINDS:
                    for mode in serve.TOTALS:
                        with self.subTest(kind=kind, mode=mode, writes=writes):
                            figures = self.bench.figures(
                                server.port, Load(kind, mode, 4, 12, 10)
                            )
                            self.assertGreater(figures.rate, 0)
                            self.assertEqual(
                                0 < figures.p50 <= figures.p99, mode == "one"
                            )

    def test_a_load_on_the_stand_in(self) -> None:
        """Of the writers some walk first, so moves are tried as well."""
        with mock.patch.dict(os.environ, ARENA=STAND_IN):
            self.assertGreater(
                self.bench.of_arena(Load("writes", "many", 2, 66, 4)).rate, 0
            )

    def test_memory_with_sessions_open(self) -> None:
        before, peak = self.bench.peaks(
            self.bench.echo("all"), Load("looks", "hold", 1, 40, 1)
        )
        self.assertTrue(100 < before < peak)

    def test_another_answer_ends_the_load(self) -> None:
        with socket.create_server(("127.0.0.1", 0)) as listener:
            thread = threading.Thread(target=self.deny, args=(listener,))
            thread.start()
            with self.assertRaisesRegex(FailedCheckError, "another answer"):
                self.bench.figures(
                    listener.getsockname()[1], Load("looks", "one", 1, 1, 1)
                )
            thread.join()

    def deny(self, listener: socket.socket) -> None:
        with listener.accept()[0] as client:
            client.recv(100)
            client.sendall(b'{"no":"key"}\n')

    def test_a_server_that_does_not_listen_has_failed(self) -> None:
        with self.assertRaisesRegex(FailedCheckError, "no such words"):
            with Server(
                ["sh", "-c", "echo no such words >&2; exit 2"],
                port=1,
                errors=self.bench.folder / "errors",
            ):
                self.fail("it did not start")
