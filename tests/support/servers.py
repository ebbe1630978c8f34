"""Servers that tests start, such as `arena serve`: what clients and the operator say to
them, and how they ended."""
import contextlib
import os
import pathlib
import socket
import subprocess
import threading
import time
from typing import Any, NamedTuple, Optional, Sequence, Tuple, Union

from arena_lab.rules.refusals import split_line
from arena_lab.support.built import PORT_LINE, TOP, UNPROVED_LINE
from arena_lab.support.ports import free_port
from arena_lab.support.waiting import is_ready
from tests.support.counts import FailedCheckError, require

HOST = "127.0.0.1"
# seconds for a server's start, for a reply, and for its end
START = 20.0
PATIENCE = 20.0
END = 60.0
# warnings of programs without a proof, printed at each start
WARNINGS = tuple(f"{line}\n".encode() for line in (UNPROVED_LINE, PORT_LINE))


def without_warning(errors: bytes) -> bytes:
    """Standard error of a program, without the line that says that the program is not
    proved."""
    return b"".join(line for line in errors.splitlines(True) if line not in WARNINGS)


def without_notes(text: bytes, words: Sequence[Union[str, bytes]]) -> bytes:
    """What a command of these words told but for notes on a tournament, ignored keys,
    the schedule and links, and for the line that the program is not proved."""
    names = [os.fsdecode(word) for word in words]
    return b"".join(
        line
        for line in without_warning(text).splitlines(True)
        if not split_line(
            line.decode(errors="replace").removesuffix("\n"), names
        ).is_note
    )


class Run(NamedTuple):
    """What came of a run."""

    status: int
    stdout: bytes
    stderr: bytes

    def texts(self) -> Tuple[int, str, str]:
        """The same in texts."""
        return self.status, self.stdout.decode(), self.stderr.decode(errors="replace")


def enter(key: str) -> bytes:
    """The line of a client that enters."""
    return b'{"do":"enter","key":"%b"}\n' % key.encode()


class Server:
    """A server on a free port. It is killed at the end of the test, and its standard
    error may go to a file."""

    def __init__(
        self,
        command: Sequence[object],
        folder: pathlib.Path = TOP,
        port: Optional[int] = None,
        errors: Optional[pathlib.Path] = None,
        **streams: Any,
    ) -> None:
        """If the command names no port, a free one is put behind it."""
        self.port = port or free_port()
        self.begun = time.monotonic()
        self._errors = errors
        self._listens = b"listening %d\n" % self.port
        command = command if port else [*command, "--port", self.port]
        streams = {
            "stdin": subprocess.DEVNULL,
            "stdout": subprocess.PIPE,
            "stderr": subprocess.PIPE,
            **streams,
        }
        with errors.open("wb") if errors else contextlib.nullcontext(
            streams["stderr"]
        ) as streams["stderr"]:
            self.child = subprocess.Popen([*map(str, command)], cwd=folder, **streams)
        late = threading.Timer(START, self.child.kill)
        late.start()
        self.first = self.child.stdout.readline()
        late.cancel()

    def __enter__(self) -> "Server":
        if self.first != self._listens:
            self.child.kill()
            errors = (
                self._errors.read_bytes()
                if self._errors
                else self.child.communicate()[1]
            )
            self.__exit__()
            raise FailedCheckError(
                f"the server did not start: {self.first or errors!r}"
            )
        return self

    def __exit__(self, *_: object) -> None:
        self.child.kill()
        self.child.wait()
        for stream in (self.child.stdin, self.child.stdout, self.child.stderr):
            if stream:
                stream.close()

    def connect(self, text: bytes = b"", source: str = HOST) -> socket.socket:
        """A client that says this."""
        client = socket.create_connection((HOST, self.port), PATIENCE, (source, 0))
        client.sendall(text)
        return client

    def hears(self, text: bytes) -> bytes:
        """All that a client hears that says this and ends its input."""
        with self.connect(text) as client:
            client.shutdown(socket.SHUT_WR)
            with client.makefile("rb") as answers:
                return answers.read()

    def says(self, text: bytes) -> None:
        """The operator says something on standard input, and says no end of it."""
        self.child.stdin.write(text)
        self.child.stdin.flush()

    def tells(self, expectation: str) -> str:
        """Reads standard error until a line contains this text; returns all of it."""
        text = ""
        until = time.monotonic() + PATIENCE
        while expectation not in text and time.monotonic() < until:
            if is_ready(self.child.stderr, 0.1):
                text += os.read(self.child.stderr.fileno(), 65_536).decode()
        require(expectation in text, f"{expectation!r} is not told, but {text!r}")
        return text

    def wait_for_end(self) -> Run:
        """Waits until the server has ended: its exit status, what it printed after the
        line that says where it listens, and what of standard error nobody has read
        yet, but for notes on the tournament."""
        output, errors = self.child.communicate(timeout=END)
        return Run(
            self.child.returncode,
            self.first.removeprefix(self._listens) + output,
            without_notes(errors or b"", self.child.args),
        )


def serve(
    program: str,
    folder: pathlib.Path,
    *options: object,
    turns: int = 400,
    pause: int = 5,
    sessions: int = 100,
    grace: int = 300,
    prefix: str = "match",
    front: Sequence[object] = (),
    **streams: Any,
) -> Server:
    """The program serves the tournament of a folder, by a command in front of it if one
    is given."""
    words = [
        *front,
        program,
        "serve",
        "cup.toml",
        "--sessions",
        sessions,
        "--turns",
        turns,
        "--pause",
        pause,
        "--grace",
        grace,
        "--replay",
        prefix,
        *options,
    ]
    return Server(words, folder, **streams)
