"""Limits the programs of a match: how long the lab waits for them, and how many bytes
they send and receive."""
import time
from typing import Optional, Sized

# seconds that an agent may take to send or to wait, if nothing else is asked for
LIMIT = 5
# faults of programs that exceed their time; how their matches go on depends on the
# machine
SENT_NOTHING = "has sent no line for"
READ_NOTHING = "has not read what it was told within"
USED_UP = "has used up the time of its match,"


class Room:
    """Limits the bytes of lines that the programs of a match send and receive together,
    because the lab stores and writes them."""

    def __init__(self, limit: float) -> None:
        self._most = self._left = limit

    def take(self, line: Sized) -> None:
        """Counts a line; ValueError says that there is no room for it."""
        self._left -= len(line) + 1
        if self._left < 0:
            raise ValueError(
                f"has used up the {self._most / (1 << 20):g} MB of lines that a match has, sent and told"
            )


class TimeBound:
    """How long programs may let the lab wait: for a line, and in all their match. Used
    by `with`, it gives until when the lab waits, and counts how long it has waited."""

    def __init__(self, line: float, match: float) -> None:
        self.waited = 0.0
        self._line = line
        self._match = match
        self._began = 0.0
        # common deadline of all programs, if they share one
        self._until: Optional[float] = None

    def begin(self, is_together: bool = True) -> None:
        """From now on all programs are waited for together, or each by itself again."""
        self._until = time.monotonic() + self._line if is_together else None

    def __enter__(self) -> float:
        self._began = time.monotonic()
        until = self._began + self._line if self._until is None else self._until
        return min(until, self._began + self._match - self.waited)

    def __exit__(self, *_: object) -> None:
        self.waited += time.monotonic() - self._began

    def says(self, what: str) -> str:
        """Returns the fault of a program that exceeded its time."""
        if self._match - self.waited <= self._line:
            return f"{USED_UP} {self._match:g} s in all, as the lab waited for its programs"
        return f"{what} {self._line:g} s"
