"""Ports of this machine."""
import errno
import os
import socket

from arena_lab.support.faults import ArenaError

MAX_PORT = 65_535


def free_port() -> int:
    """A port on which nobody listens."""
    with socket.create_server(("127.0.0.1", 0)) as listener:
        port: int = listener.getsockname()[1]
        return port


def listen(address: str, port: int, backlog: int = 1024) -> socket.socket:
    """Listens at an address and port before anything else is done or said; raises
    ArenaError, which says what to change, if that is not possible."""
    if not 0 <= port <= MAX_PORT:
        raise ArenaError(f"{port} is no port: say --port N, from 1 to {MAX_PORT}")
    family = socket.AF_INET6 if ":" in address else socket.AF_INET
    try:
        return socket.create_server((address, port), family=family, backlog=backlog)
    except OSError as fault:
        text = (
            f"{os.strerror(fault.errno or 0).lower()}: say another --port or --address"
        )
        if fault.errno == errno.EADDRINUSE:
            text = "another program listens there: end it, or say --port N"
        raise ArenaError(f"{address}:{port}: {text}") from None


def link_to(listener: socket.socket) -> str:
    """Returns the address of the pages of a listener."""
    host, port = listener.getsockname()[:2]
    return f"http://[{host}]:{port}/" if ":" in host else f"http://{host}:{port}/"
