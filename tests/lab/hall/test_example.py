"""The teams of examples/hall.py, whatever the hall does."""
import contextlib
import socket
import threading
import unittest
from unittest import mock

from examples import hall

# seconds that a test waits for what takes a fraction of one
PATIENCE = 20


class Example(unittest.TestCase):
    def test_a_team_ends_although_the_hall_answers_nothing(self) -> None:
        """A hall that is stopped while a program is handed in may never answer; the
        sample then waited for its team for ever."""
        server = self.enterContext(
            contextlib.closing(socket.create_server(("127.0.0.1", 0)))
        )
        port = server.getsockname()[1]
        self.enterContext(mock.patch.object(hall, "ANSWER", 0.5))
        self.enterContext(mock.patch.object(hall.Demo, "__init__", lambda demo: None))
        self.enterContext(
            mock.patch.object(hall.Demo, "tokens", lambda demo: {"amber": "token"})
        )
        demo = hall.Demo()
        demo.address = f"http://127.0.0.1:{port}"
        demo._is_over = threading.Event()
        team = threading.Thread(target=demo._play, args=("amber", "token"), daemon=True)
        team.start()
        connection = server.accept()[0]
        self.enterContext(contextlib.closing(connection))
        demo._is_over.set()
        team.join(PATIENCE)
        self.assertFalse(team.is_alive(), "the team waits for the hall")
