"""The server of a match: the program, on a port of the worker's range, with one
match."""
import contextlib
import os
import pathlib
import random
import socket
import subprocess
from typing import IO, List, NamedTuple, Optional, Sequence, Tuple, cast

from arena_lab.hall.attempts.match_draws import TOURNAMENT
from arena_lab.hall.machine import MachineFaultError
from arena_lab.hall.place import log_line
from arena_lab.support.waiting import is_ready

# ends a program with the process that started it, also where that is killed; one that
# is late to hear it ends itself
BOUND = ["--", "sh", "-c", 'test "$PPID" = "$0" || exit 1; exec "$@"']
# of the program: the port is in use
NO_PORT = 6
SECONDS_TO_BEGIN = 30.0
GRACE = 3_000


class NoServerError(MachineFaultError):
    """The server of a match did not begin, or ended by a fault; says how."""


class Times(NamedTuple):
    """How long a match goes on at most: its turns, the milliseconds before each, and
    those it waits for its agents."""

    turns: int
    pause: int
    gather: int

    def seconds(self) -> float:
        """Returns how long its server goes on at most."""
        return (self.turns * self.pause * 1.5 + self.gather + GRACE) / 1000 + 60


class Server:
    """A server that goes on, in the folder of its match."""

    def __init__(
        self, child: "subprocess.Popen[bytes]", folder: pathlib.Path, port: int
    ) -> None:
        self.port = port
        self._child = child
        self._folder = folder

    def close(self) -> None:
        """Asks it to close its match now."""
        with contextlib.suppress(OSError):
            pipe = cast(IO[bytes], self._child.stdin)
            pipe.write(b"close\n")
            pipe.flush()

    def has_ended(self) -> bool:
        """Returns whether it has ended well; another end is a fault."""
        status = self._child.poll()
        if status:
            tell_log(self._folder)
            raise NoServerError(f"the server of the match ended with status {status}")
        return status is not None

    def kill(self) -> None:
        self._child.kill()
        self._child.wait()
        for pipe in (self._child.stdin, self._child.stdout):
            with contextlib.suppress(OSError):
                cast(IO[bytes], pipe).close()


def tell_log(folder: pathlib.Path) -> None:
    """Writes a server's last line to the worker's log, for the teacher. Teams never see
    it: it counts events that no agent can observe."""
    with contextlib.suppress(OSError, IndexError):
        last = (
            (folder / "log.txt")
            .read_text(encoding="utf-8", errors="replace")
            .splitlines()[-1]
        )
        log_line(f"{folder}: {last[:200]}")


def bound(words: Sequence[object]) -> List[str]:
    """A command that is killed with the thread that starts it."""
    return [
        "setpriv",
        "--pdeathsig",
        "KILL",
        *BOUND,
        str(os.getpid()),
        *map(str, words),
    ]


def start(
    program: str,
    folder: pathlib.Path,
    times: Times,
    listen_range: Tuple[str, Tuple[int, int]],
) -> Server:
    """Starts the server of the match of a folder, on an address and on a port of a
    range that nobody uses."""
    address, (first, last) = listen_range
    for port in random.sample(range(first, last + 1), last + 1 - first):
        if is_free(address, port):
            server = start_server(program, folder, times, (address, port))
            if server is not None:
                return server
    raise NoServerError(f"all ports from {first} to {last} are in use")


def is_free(address: str, port: int) -> bool:
    """Returns whether nobody listens on a port now."""
    family = socket.AF_INET6 if ":" in address else socket.AF_INET
    with socket.socket(family) as probe:
        probe.setsockopt(socket.SOL_SOCKET, socket.SO_REUSEADDR, 1)
        try:
            probe.bind((address, port))
        except OSError:
            return False
    return True


def start_server(
    program: str, folder: pathlib.Path, times: Times, listen_address: Tuple[str, int]
) -> Optional[Server]:
    """The server on this port, or nothing if another was faster."""
    address, port = listen_address
    words = [
        program,
        "serve",
        TOURNAMENT,
        "--address",
        address,
        "--port",
        port,
        "--replay",
        "m",
        "--turns",
        times.turns,
        "--pause",
        times.pause,
        "--gather",
        times.gather,
        "--grace",
        GRACE,
        "--log",
        "--early",
    ]
    with (folder / "log.txt").open("wb") as log:
        child = subprocess.Popen(
            bound(words),
            cwd=folder,
            stdin=subprocess.PIPE,
            stdout=subprocess.PIPE,
            stderr=log,
            env={"PATH": os.environ.get("PATH", "/usr/bin:/bin")},
        )
    server = Server(child, folder, port)
    out = cast(IO[bytes], child.stdout)
    line = out.readline() if is_ready(out, SECONDS_TO_BEGIN) else b""
    if line == f"listening {port}\n".encode():
        return server
    child.kill()
    status = child.wait()
    server.kill()
    if status == NO_PORT:
        return None
    tell_log(folder)
    raise NoServerError(f"the server of a match did not begin (status {status})")
