"""What the tests of halls share: a hall of this process, without servers, and halls
that are served."""
import atexit
import contextlib
import csv
import http.client
import io
import json
import os
import pathlib
import shutil
import signal
import socket
import subprocess
import sys
import tempfile
import time
import unittest
import zipfile
from typing import Any, Callable, Dict, Iterator, List, Optional

from arena_lab.hall.place import HallFolder
from arena_lab.rules.engines import TOP
from arena_lab.sandbox import sandboxes
from arena_lab.sandbox.processes import process_numbers, command_words
from arena_lab.support.ports import free_port
from tests.support.matches import program

COURSE = """
title = "A <b>trial</b>"
ports = [{first}, {last}]
minutes = {minutes}
gather = 20
pause = 1
{more}

[[team]]
name = "amber"

[[team]]
name = "birch"
display = "<script>alert(1)</script> Łódź"

[[team]]
name = "cedar"

[[network]]
name = "ring of 5"
network = "ring:5"

[[network]]
name = "torus with a map"
network = "torus:3x3"
map = true

[limits]
requests = 2000
matches = 30

[hand_ins]
command = "python3 agent.py {{host}} {{port}} {{key}} {{nodes}}"
networks = ["ring:5"]
secret = ["ring:6"]
holes = 1
schedulers = ["fair"]
seeds = 1
"""
SECONDS = 180.0
# seconds after which a worker that is silent is taken for gone
LEASE = "4"
_place: List[HallFolder] = []


def started_hall() -> HallFolder:
    """The hall of this process, which is made once: its database, its teams, and nobody
    who serves it."""
    if not _place:
        folder = pathlib.Path(tempfile.mkdtemp(prefix="hall-"))
        atexit.register(shutil.rmtree, folder, True)
        course = folder / "trial.toml"
        course.write_text(
            COURSE.format(
                first=4100, last=4199, minutes=1, more='freeze = "2099-01-01 00:00"'
            )
        )
        hall_folder = HallFolder(folder / "trial.hall", course, program())
        hall_folder.write()
        from arena_lab.hall import entry

        entry.begin(str(hall_folder.folder))
        from django.conf import settings
        from django.core.management import call_command
        from django.test.utils import override_settings, setup_test_environment

        call_command("migrate", verbosity=0, interactive=False)
        setup_test_environment()
        # tests change what tables have, and look at once; and each client of a test
        # would list all files
        dummy = {"BACKEND": "django.core.cache.backends.dummy.DummyCache"}
        override_settings(CACHES={**settings.CACHES, "default": dummy}).enable()
        settings.WHITENOISE_AUTOREFRESH = True
        settings.PASSWORD_HASHERS = ["django.contrib.auth.hashers.MD5PasswordHasher"]
        from arena_lab.hall import keys

        keys.sync(hall_folder.hall())
        _place.append(hall_folder)
    return _place[0]


class Response:
    """An answer of a hall."""

    def __init__(self, status: int, headers: Any, body: bytes) -> None:
        self.status = status
        self.headers = headers
        self.body = body

    def json(self) -> Any:
        return json.loads(self.body)


def told_by(
    port: int,
    how: str,
    path: str,
    headers: Dict[str, str],
    body: Optional[bytes] = None,
) -> Response:
    """What the web server on a port of this machine answers."""
    connection = http.client.HTTPConnection("127.0.0.1", port, timeout=SECONDS)
    with contextlib.closing(connection):
        connection.request(how, path, body, headers)
        answer = connection.getresponse()
        return Response(answer.status, answer.headers, answer.read())


class ServedHall:
    """A hall that is served, with its processes."""

    def __init__(
        self, folder: pathlib.Path, extra: str = "", minutes: int = 1, workers: int = 1
    ) -> None:
        self.port = free_port()
        self._minutes = minutes
        self.course = folder / "trial.toml"
        self.write(extra)
        self.folder = folder / "trial.hall"
        self._workers = ["--workers", str(workers)]
        self._said = folder / "said.txt"
        self.lease = LEASE
        self.child: Optional["subprocess.Popen[str]"] = None

    def write(self, extra: str) -> None:
        """Writes the course's file, with more keys."""
        first = 20_000 + os.getpid() % 200 * 100
        self.course.write_text(
            COURSE.format(
                first=first, last=first + 40, minutes=self._minutes, more=extra
            )
        )

    def words(self, *words: object) -> List[str]:
        return [sys.executable, "-m", "arena_lab", "hall", *map(str, words)]

    def start(self) -> None:
        """Serves the hall, which takes hand-ins: where programs have no walls, the test
        is skipped."""
        if sandboxes.weakness():
            raise unittest.SkipTest(f"no walls here: {sandboxes.weakness()}")
        with self._said.open("a") as output:
            self.child = subprocess.Popen(
                [
                    *self.words(self.course),
                    "--program",
                    program(),
                    "--port",
                    str(self.port),
                    *self._workers,
                ],
                cwd=TOP,
                stdout=subprocess.DEVNULL,
                stderr=output,
                text=True,
                env={**os.environ, "ARENA_HALL_LEASE": self.lease},
            )
        self.wait(self.answers, "the hall answers")

    def stop(self) -> None:
        if self.child is not None:
            self.child.terminate()
            self.child.wait(30)
            self.child = None

    def answers(self) -> bool:
        with contextlib.suppress(OSError, http.client.HTTPException):
            return self.ask("GET", "/login").status == 200
        return False

    def wait(
        self, holds: Callable[[], Any], what: str, seconds: float = SECONDS
    ) -> Any:
        """Waits until something holds, and gives it."""
        limit = time.monotonic() + seconds
        while time.monotonic() < limit:
            with contextlib.suppress(OSError, http.client.HTTPException):
                result = holds()
                if result:
                    return result
            time.sleep(0.1)
        raise AssertionError(f"not within {seconds} s: {what}; {self.faults()}")

    def faults(self) -> str:
        """What the processes have said of faults."""
        return self._said.read_text(errors="replace")[-3000:]

    def ask(self, how: str, path: str, token: str = "", body: Any = None) -> Response:
        """Sends a request, with a JSON body if one is given."""
        if body is None:
            return self.send(how, path, token)
        return self.send(
            how, path, token, json.dumps(body).encode(), "application/json"
        )

    def send(
        self,
        how: str,
        path: str,
        token: str = "",
        body: Optional[bytes] = None,
        kind: str = "",
    ) -> Response:
        """Sends a request, with a body of this media type if one is given."""
        headers = {"Authorization": f"Bearer {token}"} if token else {}
        return told_by(
            self.port,
            how,
            path,
            {**headers, **({"Content-Type": kind} if kind else {})},
            body,
        )

    def hand_in(self, token: str, payload: bytes) -> Response:
        """Hands in a program, as a zip."""
        edge = b"edge"
        front = b'Content-Disposition: form-data; name="file"; filename="a.zip"\r\n\r\n'
        body = b"--" + edge + b"\r\n" + front + payload + b"\r\n--" + edge + b"--\r\n"
        return self.send(
            "POST", "/api/hand-ins", token, body, "multipart/form-data; boundary=edge"
        )

    def tokens(self) -> Dict[str, str]:
        with (self.folder / "keys.csv").open(encoding="utf-8", newline="") as file:
            return {row["team"]: row["token"] for row in csv.DictReader(file)}

    def request_attempt(self, token: str, network: str = "ring of 5") -> int:
        """Asks for an attempt; gives its number."""
        reply = self.ask("POST", "/api/matches", token, {"network": network})
        if reply.status != 201:
            raise AssertionError(reply.body)
        return int(reply.json()["id"])

    def attempt(self, token: str, number: int) -> Dict[str, Any]:
        return dict(self.ask("GET", f"/api/matches/{number}", token).json())

    def begins(self, token: str, number: int, than: Any = None) -> Dict[str, Any]:
        """An attempt whose servers listen, with other keys than these."""

        def check_begin() -> Any:
            message = self.attempt(token, number)
            keys = [match["keys"] for match in message["matches"]]
            return (
                message
                if message["state"] == "running" and keys and keys != than
                else None
            )

        return dict(self.wait(check_begin, f"attempt {number} begins"))

    def is_left(self, attempt: int) -> bool:
        """Returns whether a server of an attempt is left."""
        return bool(self.servers(attempt))

    def over(self, token: str, number: int) -> Dict[str, Any]:
        def check_over() -> Any:
            message = self.attempt(token, number)
            return (
                message if message["state"] in ("over", "lost", "cancelled") else None
            )

        return dict(self.wait(check_over, f"attempt {number} is over"))

    def processes(self) -> Dict[str, int]:
        """The numbers of the hall's processes by their names: `web`, `worker 0` and so
        on."""
        results = {}
        for process in process_numbers():
            words = command_words(process)
            if words[1:4] == ["-m", "arena_lab.hall.entry", str(self.folder)]:
                results[
                    " ".join(words[4:6]) if words[4] == "worker" else words[4]
                ] = process
        return results

    def kill(self, name: str) -> None:
        """Kills a process of the hall, as the system does where memory is short, and
        waits for the next."""
        before = self.processes()[name]
        os.kill(before, signal.SIGKILL)
        self.wait(
            lambda: self.processes().get(name) not in (None, before),
            f"{name} is started again",
        )
        self.wait(self.answers, "the hall answers again")

    def servers(self, attempt: Any = "") -> List[int]:
        """The numbers of all servers of matches of this hall, or of an attempt, that go
        on."""
        folder = (
            str(self.folder / "attempts" / f"{attempt}/")
            if attempt
            else str(self.folder)
        )
        results = []
        for process in process_numbers():
            with contextlib.suppress(OSError):
                if "serve" in command_words(process) and os.readlink(
                    f"/proc/{process}/cwd"
                ).startswith(folder):
                    results.append(process)
        return results


@contextlib.contextmanager
def serve_hall(extra: str = "", **args: Any) -> Iterator[ServedHall]:
    """A hall that is served while the block goes on."""
    with tempfile.TemporaryDirectory(prefix="hall-") as name:
        hall = ServedHall(pathlib.Path(name), extra, **args)
        try:
            hall.start()
            yield hall
        finally:
            hall.stop()


class Playing(unittest.TestCase):
    """Tests that start agents of a hall's matches."""

    def end_agents(self, agents: List[Any]) -> None:
        """Ends these agents with the test."""
        for agent in agents:
            self.addCleanup(agent.wait)
            self.addCleanup(agent.kill)


def play(text: Dict[str, Any]) -> List["subprocess.Popen[bytes]"]:
    """Starts the sample agents of an attempt on a ring."""
    return [
        subprocess.Popen(
            [
                sys.executable,
                str(TOP / "examples/agents/ring.py"),
                match["host"],
                str(match["port"]),
                key,
                str(text["facts"]["nodes"]),
            ],
            stdout=subprocess.DEVNULL,
            stderr=subprocess.DEVNULL,
        )
        for match in text["matches"]
        for key in match["keys"]
    ]


def sample_program() -> bytes:
    """The sample agent of rings as a zip, as a team hands it in."""
    buffer = io.BytesIO()
    with zipfile.ZipFile(buffer, "w") as archive:
        for name, entry in (("ring.py", "agent.py"), ("client.py", "client.py")):
            archive.write(TOP / "examples" / "agents" / name, entry)
    return buffer.getvalue()


def result_of(text: Dict[str, Any]) -> Any:
    """Returns the result of an attempt, regardless of its pages."""
    return (
        text["state"],
        text["verdicts"],
        [(match["keys"], match["after"]) for match in text["matches"]],
    )


def replies_to(
    host: str, port: int, lines: List[Dict[str, Any]]
) -> List[Dict[str, Any]]:
    """Sends lines one by one, and returns the replies."""
    with socket.create_connection(
        (host, port), timeout=SECONDS
    ) as connection, connection.makefile("rw") as file:
        results = []
        for line in lines:
            file.write(json.dumps(line) + "\n")
            file.flush()
            results.append(json.loads(file.readline()))
        return results
