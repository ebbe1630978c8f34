"""The lines that a program sends, read as they come."""
import socket
import threading
from collections import deque
from typing import Deque, List, Optional

from arena_lab.rules.limits import MAX_LINE

PIECE = 65_536
# bytes that are kept of what a program sends before they are due
AHEAD = 8 << 20


class Lines:
    """Reads a program's lines as they arrive, so that lines sent before its end are
    kept."""

    def __init__(self, connection: socket.socket) -> None:
        self._connection = connection
        self._changed = threading.Condition()
        self._lines: Deque[bytes] = deque()
        # how many lines have come, and how many bytes of them are kept
        self.count = self._kept = 0
        self._is_over = False
        # what stands behind the last line feed
        self.rest = b""
        threading.Thread(target=self._read, daemon=True).start()

    def next(self, seconds: float) -> Optional[bytes]:
        """Returns the next line, or None at the end. Raises TimeoutError after
        `seconds`."""
        with self._changed:
            if not self._changed.wait_for(
                lambda: self._lines or self._is_over, seconds
            ):
                raise TimeoutError
            if not self._lines:
                return None
            self._kept -= len(self._lines[0])
            self._changed.notify()
            return self._lines.popleft()

    def is_over(self) -> bool:
        """Returns whether the program has closed its connection."""
        with self._changed:
            return self._is_over

    def latest(self) -> bytes:
        """The line that came last of those that are kept."""
        with self._changed:
            return self._lines[-1] if self._lines else b""

    def close(self) -> None:
        """Reads no more."""
        with self._changed:
            self._is_over = True
            self._changed.notify()
        try:
            self._connection.shutdown(socket.SHUT_RDWR)
        except OSError:
            pass

    def _read(self) -> None:
        """Reads until the end. Overlong lines are truncated to one byte more than the
        limit."""
        rest = b""
        while piece := self._piece():
            *whole, rest = (rest + piece).split(b"\n")
            self.rest = rest = rest[: MAX_LINE + 1]
            self._keep([line[: MAX_LINE + 1] for line in whole if line.strip(b" \t\r")])
        with self._changed:
            self._is_over = True
            self._changed.notify()

    def _piece(self) -> bytes:
        try:
            return self._connection.recv(PIECE)
        except OSError:
            # the program has reset its connection
            return b""

    def _keep(self, lines: List[bytes]) -> None:
        with self._changed:
            self._lines.extend(lines)
            self.count += len(lines)
            self._kept += sum(map(len, lines))
            self._changed.notify()
            self._changed.wait_for(lambda: self._kept < AHEAD or self._is_over)
