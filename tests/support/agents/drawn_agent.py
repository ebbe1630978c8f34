"""A random agent, which is a function of its key and of its history. It sleeps, sends
invalid commands, raises, polls, leaves, crashes after the match, sends lines after its
end, and may send a line before it arrives."""
import hashlib
import json

from client import MatchOver

GONE = '{"ok":"gone"}'
OVER = '{"ok":"over"}'


class DrawnStep:
    """Draws each step from a hash of the history."""

    def __init__(self, salt, lines, sleep, is_early):
        self._heard = salt
        self._lines = lines
        self._sleep = sleep
        self._is_early = is_early

    def draw(self, below):
        self._heard += "."
        return (
            int.from_bytes(hashlib.sha256(self._heard.encode()).digest()[:4], "big")
            % below
        )

    def hear(self):
        line = self._lines.receive()
        self._heard += line
        return line

    def say(self, command):
        """Sends a command and returns its reply (for a departure: the arrival's). Some
        agents crash after the match."""
        self._lines.send(json.dumps(command, separators=(",", ":")))
        line = self.hear()
        if line == GONE:
            if self._is_early and self.draw(6) == 0:
                return self.say_early()
            if self.draw(4) == 0:
                self._sleep(1)
            line = self.hear()
        if line == OVER:
            if self.draw(3) == 0:
                raise RuntimeError("the match is over")
            raise MatchOver()
        return json.loads(line)

    def say_early(self):
        """Says a line on its link, which waits there until it has arrived."""
        self._lines.send('{"do":"look"}')
        results = [self.hear(), self.hear()]
        if OVER in results:
            raise MatchOver()
        return json.loads(results[1])

    def end(self, command):
        """Ends, and may say something then, which nobody answers."""
        self.say(command)
        if self.draw(3) == 0:
            self._lines.send('{"do":"look"}')
            if self.draw(2):
                self.hear()

    def act(self, board):
        """Takes one step; returns None after the last one."""
        kind = self.draw(20)
        if kind < 6:
            return self.say({"do": "depart", "port": self.draw(2)})
        if kind < 10:
            return self.say(
                {"do": "write", "expect": board, "put": ("", "a", "b")[self.draw(3)]}
            )
        if kind < 13:
            self._sleep(1)
            return {}
        if kind in (15, 16):
            return self.end(
                {"do": "accuse", "port": self.draw(2)}
                if kind == 15
                else {"do": "leave"}
            )
        if kind == 18:
            raise ValueError("a mistake")
        return None if kind == 19 else self.say({"do": "bad" if kind == 17 else "look"})

    def run(self, key, length):
        if self.draw(5) == 0:
            self._sleep(1)
        if self.draw(12) == 0:
            return
        board = self.say({"do": "enter", "key": key}).get("board", "")
        for _ in range(length):
            heard = self.act(board)
            if heard is None:
                return
            board = heard.get("board", board)
        if self.draw(2):
            self.end({"do": "accuse", "port": self.draw(2)})


def search(agent, key, seed, length, early, roles, sleep):
    """Each agent of a match has a role of its own: by its key, or by what its module
    `random` draws."""
    import random

    role = (key, str(random.random()), "")[roles]
    DrawnStep(f"{seed}-{role}", agent._lines, sleep, bool(early)).run(key, length)
