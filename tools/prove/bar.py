"""A bar on standard error for work whose time is known from earlier runs. It needs no
package, as the first start of the program has none."""
import math
import shutil
import sys
import time
from typing import TextIO

WIDTH = 20
# seconds between two lines if standard error is no terminal
QUIET = 30.0


def minutes(seconds: float) -> str:
    """A time as it is told: `1 min 05 s`, or `5 s`."""
    whole, rest = divmod(int(seconds), 60)
    return f"{whole} min {rest:02} s" if whole else f"{rest} s"


def about(seconds: float) -> str:
    """A time that is not known well."""
    return (
        "less than a minute" if seconds < 60 else f"about {math.ceil(seconds / 60)} min"
    )


def picture(share: float) -> str:
    """Returns the bar of a share; it is full only at 100 %."""
    cells = max(0, min(WIDTH, int(share * WIDTH)))
    return f"[{'#' * cells}{'.' * (WIDTH - cells)}] {min(100, int(share * 100)):3}%"


class Bar:
    """Shows how far the work is: on a terminal in one line that changes, elsewhere by a
    line now and then."""

    def __init__(self, stream: TextIO = sys.stderr, quiet: float = QUIET) -> None:
        self._stream = stream
        self._quiet = quiet
        self._is_terminal = stream.isatty()
        self._last = ""
        self._until = 0.0

    def show(self, share: float, text: str) -> None:
        """Shows that this share of the work is done, with a text behind it."""
        line = f"arena: {picture(share)} {text}"
        if self._is_terminal:
            # a line wider than the terminal would wrap, and could not be overwritten
            self._stream.write(
                f"\r{line[:shutil.get_terminal_size().columns - 1]}\x1b[K"
            )
        elif time.monotonic() >= self._until and line != self._last:
            self._stream.write(f"{line}\n")
            self._until = time.monotonic() + self._quiet
        self._last = line
        self._stream.flush()

    def clear(self) -> None:
        """Takes the bar away, so that a line can be written."""
        if self._is_terminal:
            self._stream.write("\r\x1b[K")
            self._stream.flush()

    def say(self, text: str) -> None:
        """Writes a line that stays."""
        self.clear()
        self._stream.write(f"arena: {text}\n")
        self._stream.flush()
