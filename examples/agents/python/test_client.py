"""A first test: python3 -m unittest"""
import json
import socket
import threading
import unittest
from typing import List

from client import Agent, Here

HERE = {"ok": "here", "ports": 2, "from": None, "board": ""}


class Server:
    """Answers each line of one client by the next of these lists of answers."""

    def __init__(self, answers: List[List[object]]) -> None:
        self.heard: List[object] = []
        self._answers = answers
        self._listener = socket.create_server(("127.0.0.1", 0))
        self.port = self._listener.getsockname()[1]
        self._thread = threading.Thread(target=self._serve)
        self._thread.start()

    def _serve(self) -> None:
        connection, _ = self._listener.accept()
        with connection, self._listener, connection.makefile("rw") as lines:
            for answers in self._answers:
                self.heard.append(json.loads(lines.readline()))
                for answer in answers:
                    lines.write(json.dumps(answer) + "\n")
                lines.flush()

    def end(self) -> None:
        self._thread.join()


class TestClient(unittest.TestCase):
    def test_a_departure_is_answered_twice(self) -> None:
        server = Server([[HERE], [{"ok": "gone"}, {**HERE, "from": 1, "board": "3 1"}]])
        agent, here = Agent.join("127.0.0.1", server.port, "ka")
        self.assertEqual(Here(2, None, ""), here)
        self.assertEqual(Here(2, 1, "3 1"), agent.depart(0))
        agent.close()
        server.end()
        self.assertEqual(
            [{"do": "enter", "key": "ka"}, {"do": "depart", "port": 0}], server.heard
        )


if __name__ == "__main__":
    unittest.main()
