"""Ports that are taken are told in a sentence, whatever command wants them."""
import contextlib
import io
import socket
import unittest

from arena_lab.__main__ import main
from arena_lab.support.built import TOP
from arena_lab.support.faults import ArenaError
from arena_lab.support.ports import link_to, listen


class Ports(unittest.TestCase):
    def setUp(self) -> None:
        self.other = self.enterContext(socket.create_server(("127.0.0.1", 0)))
        self.port = self.other.getsockname()[1]

    def test_who_listens_is_reached_by_its_link(self) -> None:
        with listen("127.0.0.1", 0) as listener:
            port = listener.getsockname()[1]
            self.assertEqual(link_to(listener), f"http://127.0.0.1:{port}/")
            socket.create_connection(("127.0.0.1", port)).close()

    def test_what_cannot_be_listened_to_is_told_with_what_to_change(self) -> None:
        for address, port, text in (
            ("127.0.0.1", self.port, "another program listens there: end it, or say"),
            ("192.0.2.1", 4000, "cannot assign requested address: say another"),
        ):
            with self.assertRaisesRegex(ArenaError, f"^{address}:{port}: .*{text}"):
                listen(address, port)

    def test_what_is_no_port_is_told(self) -> None:
        with self.assertRaisesRegex(ArenaError, "^70000 is no port: say --port N, fr"):
            listen("127.0.0.1", 70_000)

    def test_a_server_says_so_before_anything_else(self) -> None:
        tournament = str(TOP / "examples" / "contest.toml")
        output = io.StringIO()
        errors = io.StringIO()
        with contextlib.redirect_stdout(output), contextlib.redirect_stderr(errors):
            status = main(["serve", tournament, "--port", str(self.port)])
        self.assertEqual((status, output.getvalue()), (2, ""))
        self.assertEqual(
            errors.getvalue(),
            f"arena-lab: 127.0.0.1:{self.port}: another program listens there: end it, or say --port N\n",
        )
