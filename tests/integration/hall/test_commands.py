"""Commands while a hall is served: backups, mistakes, a plan, and who else may look."""
import contextlib
import os
import pathlib
import shutil
import signal
import socket
import sqlite3
import subprocess
import tarfile
import time

from arena_lab.rules.engines import TOP
from tests.integration.hall import served_hall
from tests.integration.hall.served_hall import Halls
from tests.support import halls

setUpModule = served_hall.setUpModule


class Commands(Halls):
    """Runs the teacher's commands while the hall is served."""

    def output(self, *words: object, status: int = 0) -> str:
        result = subprocess.run(
            self.hall.words(*words),
            cwd=TOP,
            text=True,
            stdout=subprocess.PIPE,
            stderr=subprocess.STDOUT,
            stdin=subprocess.DEVNULL,
        )
        self.assertEqual(result.returncode, status, result.stdout)
        return result.stdout

    def test_a_backup_is_whole(self) -> None:
        archive = self.hall.folder.parent / "hall.tar.gz"
        self.assertIn("wrote", self.output("backup", self.hall.course, archive))
        self.assertEqual(archive.stat().st_mode & 0o077, 0)
        folder = self.hall.folder.parent / "unpacked"
        with tarfile.open(archive) as tar:
            tar.extractall(folder)
        with contextlib.closing(
            sqlite3.connect(folder / "trial.hall" / "hall.sqlite3")
        ) as database:
            self.assertEqual(
                database.execute("PRAGMA integrity_check").fetchone(), ("ok",)
            )
            self.assertEqual(
                database.execute("SELECT count(*) FROM teams_team").fetchone(), (3,)
            )
        self.assertTrue((folder / "trial.hall" / "key.txt").exists())

    def test_a_hall_that_was_killed_is_restored_as_it_stood(self) -> None:
        """What came after the archive is put aside, with the hand-ins whose folders
        would be in the way."""
        archive = self.hall.folder.parent / "before.tar.gz"
        token = self.tokens["cedar"]
        second = self.hall.folder.parent / "other"
        self.output("backup", self.hall.course, archive)
        self.assertIn(
            "is served already",
            self.output("restore", self.hall.course, archive, status=2),
        )
        before = self.hall.ask("GET", "/api/matches", token).json()
        for _ in range(20):
            number = self.hall.request_attempt(token)
            self.hall.ask("POST", f"/api/matches/{number}/close", token)
            self.hall.over(token, number)
        assert self.hall.child is not None
        os.kill(self.hall.child.pid, signal.SIGKILL)
        self.hall.child.wait()
        self.hall.wait(
            lambda: not self.hall.processes(), "all processes have ended", 20
        )
        broken = self.hall.folder.parent / "broken.tar.gz"
        broken.write_bytes(archive.read_bytes()[:-2000])
        self.assertIn(
            "no hall can be restored",
            self.output("restore", self.hall.course, broken, "--aside", status=2),
        )
        now = (self.hall.folder / "hall.sqlite3").stat()
        self.assertIn(
            "there is a hall already. Say --aside",
            self.output("restore", self.hall.course, archive, status=2),
        )
        self.assertEqual((self.hall.folder / "hall.sqlite3").stat(), now)
        output = self.output("restore", self.hall.course, archive, "--aside")
        self.assertIn("what was there before is in", output)
        self.assertEqual(
            len(list(self.hall.folder.parent.glob("trial.hall.*/hall.sqlite3"))), 1
        )
        self.hall.start()
        self.assertEqual(self.hall.ask("GET", "/api/matches", token).json(), before)
        # on another machine there is no file of the course yet
        second.mkdir()
        self.output("restore", second / "trial.toml", archive)
        self.assertEqual(
            (second / "trial.toml").read_bytes(), self.hall.course.read_bytes()
        )
        self.assertTrue((second / "trial.hall" / "hall.sqlite3").exists())
        shutil.rmtree(second)

    def test_a_mistake_in_the_file_of_the_course_keeps_the_hall_as_it_was(self) -> None:
        good = self.hall.course.read_text()
        self.addCleanup(self.hall.course.write_text, good)
        self.hall.course.write_text(good + "\n[[team]\n")
        self.hall.kill("web")
        self.assertEqual(
            self.hall.ask("GET", "/api/networks", self.tokens["amber"]).status, 200
        )
        self.hall.stop()
        self.hall.start()
        self.assertIn("trial.toml: it is no TOML", self.hall.faults())
        self.assertEqual(
            self.hall.ask("GET", "/api/networks", self.tokens["amber"]).status, 200
        )

    def test_a_contest_is_planned(self) -> None:
        output = self.output(
            "contest",
            self.hall.course,
            "--name",
            "finale",
            "--networks",
            "ring of 5",
            "--minutes",
            "1",
        )
        self.assertRegex(
            output, r", finale: from .* to \d\d:\d\d, by the clock of UTC$"
        )
        reply = self.hall.ask("GET", "/api/contests", self.tokens["amber"]).json()
        self.assertEqual(
            [(reply["name"], reply["networks"]) for reply in reply],
            [("finale", ["ring of 5"])],
        )
        for words, expectation in (
            (
                ("--networks", "ring of 6"),
                "name networks of the course: ring of 5, torus with a map",
            ),
            (
                ("--networks", "ring of 5", "--start", "2020-01-01 12:00"),
                "the start has passed",
            ),
        ):
            self.assertIn(
                expectation, self.output("contest", self.hall.course, *words, status=2)
            )

    def test_faults_are_lines(self) -> None:
        self.assertIn(
            "is served already",
            self.output(self.hall.course, "--program", halls.program(), status=2),
        )
        self.assertIn(
            "name networks of the course",
            self.output("contest", self.hall.course, status=2),
        )
        self.assertIn(
            "there is no such file", self.output("serve", "nowhere.toml", status=2)
        )
        new = self.hall.folder.parent / "new.toml"
        self.assertIn("wrote", self.output("new", new))
        self.assertIn("already", self.output("new", new, status=2))
        for text, expectation in (
            ('title = "x"\nnetwork = 3', "network must be given"),
            ("x", "it is no TOML"),
            ('title = "x"\ncolour = 1', "a hall has no key colour"),
        ):
            new.write_text(text)
            self.assertIn(expectation, self.output(new, status=2))

    def test_a_port_that_is_taken_is_told_and_nothing_is_served(self) -> None:
        """Before, the web server was started again for ever."""
        second = self.hall.folder.parent / "second.toml"
        second.write_bytes(self.hall.course.read_bytes())
        words = (second, "--program", halls.program(), "--port", self.hall.port)
        output = self.output(*words, status=2)
        text = f"127.0.0.1:{self.hall.port}: another program listens there: end it, or"
        self.assertIn(text, output)
        self.assertNotIn("hall http://", output)

    def test_nobody_else_may_look(self) -> None:
        for path in [self.hall.folder, *self.hall.folder.rglob("*")]:
            with contextlib.suppress(FileNotFoundError):
                if not path.is_socket():
                    self.assertEqual(path.stat().st_mode & 0o077, 0, path)
        self.hall.ask(
            "GET", f"/api/matches?token={self.tokens['amber']}", self.tokens["amber"]
        )
        for path in (
            path
            for path in self.hall.folder.rglob("*")
            if path.is_file() and path.name != "keys.csv"
        ):
            with contextlib.suppress(FileNotFoundError):
                data = path.read_bytes()
                for token in self.tokens.values():
                    self.assertNotIn(token.encode(), data, path)
        self.assertEqual(self.hall.ask("GET", "/hall.json").status, 404)

    def test_connections_that_say_nothing_or_little_keep_nobody_waiting(self) -> None:
        """Browsers open connections for later; and a stranger may say a request byte by
        byte."""
        position = ("127.0.0.1", self.hall.port)
        with contextlib.ExitStack() as held_links:
            for count in range(60):
                idle = held_links.enter_context(socket.create_connection(position))
                if count % 2:
                    idle.sendall(b"GET /login HTTP/1.1\r\nHost: 127.0.0.1\r\nX-Slow: ")
            began = time.monotonic()
            self.hall.wait(self.hall.answers, "the hall answers", 10)
            for _ in range(10):
                self.assertEqual(
                    self.hall.ask("GET", "/api/networks", self.tokens["amber"]).status,
                    200,
                )
            self.assertLess(time.monotonic() - began, 9)

    def test_one_process_alone_answers_the_network(self) -> None:
        """The web server, and no worker."""
        numbers = set(self.hall.processes().values())
        output = (
            subprocess.run(["ss", "-Hltnp"], capture_output=True, text=True).stdout
            if have("ss")
            else ""
        )
        for line in output.splitlines():
            if any(f"pid={number}," in line for number in numbers):
                self.assertEqual(
                    int(line.split()[3].rpartition(":")[2]), self.hall.port
                )


def have(name: str) -> bool:
    return any(
        (pathlib.Path(folder) / name).exists()
        for folder in os.environ["PATH"].split(":")
    )
