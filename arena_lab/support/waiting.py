"""Waiting for what another process says. `select.select` takes no descriptor above
1,023, and a program with many sockets has such."""
import selectors
from typing import Any


def is_ready(stream: Any, seconds: float) -> bool:
    """Returns whether a stream or a descriptor can be read within this many seconds: it
    has something, or has ended."""
    with selectors.PollSelector() as selector:
        selector.register(stream, selectors.EVENT_READ)
        return bool(selector.select(seconds))
