"""ConnectionBounds of connections, of bytes and of time, before anybody is asked who he is: a
server with small bounds, and strangers who take all that they can get."""
import contextlib
import http.client
import socket
import threading
import time
import unittest
from typing import Any, Dict, Iterable, List

from arena_lab.hall.connections import ConnectionBounds, HallServer, server_on
from arena_lab.support.ports import listen
from waitress import wasyncore

SMALL = ConnectionBounds(30, 20, 4 << 20, 2 << 20, 2.0, 1 << 20)
PATIENCE = 60.0
THREADS = 2
HEAD = b"GET / HTTP/1.1\r\nHost: a\r\nX-A: "
BODY = b"POST / HTTP/1.1\r\nHost: a\r\nContent-Length: %d\r\n%s\r\n"
# MB of an answer that the server does not keep for who takes nothing of it
LARGE = 60
STRANGER = "127.0.0.2"
FORWARDED = "X-Forwarded-For: 10.0.0.%d\r\n"


class SmallServer(HallServer):
    bounds = SMALL


def respond(environ: Dict[str, Any], start: Any) -> Iterable[bytes]:
    results = [b"ok"] if environ["PATH_INFO"] == "/" else [bytes(1 << 20)] * LARGE
    start("200 OK", [("Content-Length", str(sum(map(len, results))))])
    return results


class Connections(unittest.TestCase):
    options: Dict[str, Any] = {}

    def setUp(self) -> None:
        self.server = server_on(
            self.enterContext(listen("127.0.0.1", 0)),
            respond,
            SmallServer,
            threads=THREADS,
            cleanup_interval=1,
            asyncore_use_poll=True,
            **self.options,
        )
        self.port = int(self.server.effective_port)
        thread = threading.Thread(target=self.server.run)
        thread.start()
        self.addCleanup(self.server.task_dispatcher.shutdown)
        self.addCleanup(thread.join)
        self.addCleanup(self.stop)
        self.opened = self.enterContext(contextlib.ExitStack())

    def stop(self) -> None:
        """Ends the server, which may have ended by itself."""
        with contextlib.suppress(OSError):
            self.server.trigger.pull_trigger(self.end)

    def end(self) -> None:
        """Ends the server, in its own thread."""
        wasyncore.close_all(self.server._map)

    def connection(self, address: str, payload: bytes) -> socket.socket:
        """Opens a connection from an address and sends bytes."""
        result = self.opened.enter_context(
            socket.create_connection(
                ("127.0.0.1", self.port), PATIENCE, source_address=(address, 0)
            )
        )
        with contextlib.suppress(OSError):
            result.sendall(payload)
        return result

    def status(self, address: str, body: bytes = b"", **headers: str) -> int:
        """Returns the status of a request from an address."""
        connection = http.client.HTTPConnection(
            "127.0.0.1", self.port, PATIENCE, (address, 0)
        )
        with contextlib.closing(connection):
            settings = {
                name.replace("_", "-"): header for name, header in headers.items()
            }
            connection.request("POST" if body else "GET", "/", body or None, settings)
            return connection.getresponse().status

    def wait(self, holds: Any, what: str) -> None:
        limit = time.monotonic() + PATIENCE
        while not holds():
            self.assertLess(time.monotonic(), limit, what)
            time.sleep(0.05)

    def count(self, address: str) -> int:
        return sum(channel.address == address for channel in self.server.channels())

    def is_ended(self, connection: socket.socket) -> bool:
        """Returns whether the server has ended a connection."""
        connection.settimeout(0.1)
        try:
            return connection.recv(1) == b""
        except TimeoutError:
            return False
        except OSError:
            return True


class Bounded(Connections):
    def test_an_address_has_so_many_connections_and_the_oldest_go(self) -> None:
        slow = [self.connection(STRANGER, HEAD) for _ in range(SMALL.of_address + 5)]
        self.wait(lambda: self.is_ended(slow[4]), "the fifth is ended")
        self.assertEqual(self.count(STRANGER), SMALL.of_address)
        self.assertEqual(self.status("127.0.0.3"), 200)
        self.assertEqual(self.status(STRANGER), 200)

    def test_whoever_comes_finds_a_place(self) -> None:
        """Those go whose address has most."""
        self.connection("127.0.0.9", HEAD)
        for address in ("127.0.0.4", "127.0.0.5", "127.0.0.6"):
            for _ in range(SMALL.of_address):
                self.connection(address, HEAD)
        self.assertEqual(self.status("127.0.0.3"), 200)
        self.assertEqual(self.count("127.0.0.9"), 1)
        self.wait(lambda: len(self.server.channels()) <= SMALL.all, "some are ended")

    def test_a_head_that_does_not_end_is_ended(self) -> None:
        slow = self.connection(STRANGER, HEAD)
        start = time.monotonic()
        while not self.is_ended(slow):
            self.assertLess(time.monotonic() - start, PATIENCE)
            with contextlib.suppress(OSError):
                slow.send(b"a")
        self.assertGreaterEqual(time.monotonic() - start, SMALL.head - 0.5)

    def test_so_is_a_body_that_comes_slowly(self) -> None:
        slow = self.connection(STRANGER, BODY % (1 << 20, b"") + bytes(100))
        start = time.monotonic()
        while not self.is_ended(slow):
            self.assertLess(time.monotonic() - start, PATIENCE)
            with contextlib.suppress(OSError):
                slow.send(b"a")
        self.assertGreaterEqual(time.monotonic() - start, SMALL.head + 0.5)

    def test_who_takes_nothing_of_an_answer_keeps_no_thread(self) -> None:
        for _ in range(THREADS):
            self.connection(STRANGER, b"GET /large HTTP/1.1\r\nHost: a\r\n\r\n")
        self.wait(
            lambda: all(channel.requests for channel in self.server.channels()),
            "all are asked",
        )
        self.assertEqual(self.status("127.0.0.3"), 200)

    def test_of_the_bytes_that_wait_the_largest_request_goes(self) -> None:
        large = [
            self.connection(STRANGER, BODY % ((1 << 20) + 1, b"") + bytes(1 << 20))
            for _ in range(6)
        ]
        self.wait(lambda: any(map(self.is_ended, large)), "a large one is ended")
        held_links = sum(channel.size() for channel in self.server.channels())
        self.assertLessEqual(held_links, SMALL.bytes_of_address + (2 << 20))
        self.assertEqual(self.status(STRANGER, bytes(1 << 10)), 200)
        self.assertEqual(self.status("127.0.0.3", bytes(1 << 20)), 200)


class BehindAServer(Connections):
    """All connections come of the server before the hall, which says whose requests
    they bring."""

    options = {
        "trusted_proxy": "127.0.0.1",
        "trusted_proxy_headers": {"x-forwarded-for"},
        "clear_untrusted_proxy_headers": True,
    }

    def slow(self, number: int) -> List[socket.socket]:
        payload = BODY % (60_000, (FORWARDED % number).encode()) + bytes(100)
        return [
            self.connection("127.0.0.1", payload) for _ in range(SMALL.of_address + 5)
        ]

    def test_the_address_is_that_of_who_asks(self) -> None:
        slow = self.slow(1)
        self.wait(lambda: self.is_ended(slow[4]), "the fifth is ended")
        self.wait(
            lambda: self.count("10.0.0.1") == SMALL.of_address, "the others are left"
        )
        text = "10.0.0.2, 10.0.0.3"
        self.assertEqual(self.status("127.0.0.1", X_Forwarded_For=text), 200)
        self.slow(4)
        self.assertEqual(self.status("127.0.0.1", X_Forwarded_For=text), 200)
        self.wait(lambda: len(self.server.channels()) <= SMALL.all, "some are ended")

    def test_what_others_say_of_themselves_counts_nothing(self) -> None:
        output = BODY % (9, (FORWARDED % 1).encode())
        self.connection(STRANGER, output)
        self.wait(lambda: self.count(STRANGER) == 1, "it is of its own address")
