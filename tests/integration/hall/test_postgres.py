"""A hall over PostgreSQL, for which another machine works too, and whose workers are
killed."""
import os
import pathlib
import shutil
import subprocess
import sys
import tempfile
import unittest
from typing import Any, Dict, Iterator, List

from arena_lab.hall.place import HallFolder
from arena_lab.support.ports import free_port
from tests.integration.hall.test_upgrade import EARLIER, pack_as_before
from tests.support import halls
from tests.support.halls import ServedHall, play

# where Debian has the programs of a server of PostgreSQL, which does not run as root
PROGRAMS = (
    sorted(pathlib.Path("/usr/lib/postgresql").glob("*/bin"))
    if os.geteuid() == 0
    else []
)

BEGIN = "import sys; from arena_lab.hall import entry; entry.begin(sys.argv[1])\n"
# writes a message of a team, prints what teams and messages are there, and stays
# connected
ADDS = f"""{BEGIN}
from arena_lab.hall.teams.models import Message, Team
Message.objects.create(team=Team.objects.get(name="amber"), text="odd")
"""
ROWS = f"""{BEGIN}
from arena_lab.hall.teams.models import Message, Team
print(*Team.objects.order_by("name").values_list("name", "digest"))
print(*Message.objects.filter(team__name="amber").values_list("text", flat=True))
"""
HOLDS = f"""{BEGIN}
from django.db import connection
connection.ensure_connection()
print(flush=True)
sys.stdin.read()
"""


def has_all() -> bool:
    return (
        bool(PROGRAMS)
        and shutil.which("runuser") is not None
        and subprocess.run(
            ["/usr/bin/python3", "-c", "import psycopg2"], stderr=subprocess.DEVNULL
        ).returncode
        == 0
    )


@unittest.skipUnless(
    has_all(),
    "Debian's postgresql and python3-psycopg2 are not installed, or this is not root",
)
class Postgres(halls.Playing):
    def setUp(self) -> None:
        self.folder = pathlib.Path(
            self.enterContext(tempfile.TemporaryDirectory(prefix="postgres-"))
        )
        self.folder.chmod(0o755)
        data = self.folder / "data"
        data.mkdir()
        shutil.chown(data, "postgres", "postgres")
        self.port = free_port()
        self.run_as(
            ["initdb", "-D", str(data), "-U", "hall", "-A", "trust", "--no-sync"]
        )
        words = f"-c port={self.port} -c listen_addresses=127.0.0.1 -c unix_socket_directories= -c fsync=off"
        self.run_as(
            [
                "pg_ctl",
                "-D",
                str(data),
                "-w",
                "-l",
                str(data / "log"),
                "-o",
                words,
                "start",
            ]
        )
        self.addCleanup(
            self.run_as, ["pg_ctl", "-D", str(data), "-m", "immediate", "stop"]
        )
        self.create("hall")

    def create(self, name: str) -> str:
        """Makes an empty database; gives its line of a course's file."""
        words = ["-h", "127.0.0.1", "-p", str(self.port), "-U", "hall", name]
        self.run_as(["createdb", *words])
        return f'database = "postgresql://hall@127.0.0.1:{self.port}/{name}"'

    def run_as(self, words: List[str]) -> None:
        program = [str(PROGRAMS[-1] / words[0]), *words[1:]]
        subprocess.run(
            ["runuser", "-u", "postgres", "--", *program],
            check=True,
            stdout=subprocess.DEVNULL,
            stdin=subprocess.DEVNULL,
            cwd="/",
        )

    def machine(self, hall: ServedHall) -> Any:
        """Another machine, which works for the hall."""
        variables = {
            **os.environ,
            "ARENA_HALL_LEASE": halls.LEASE,
            "ARENA_HALL_HOST": "localhost",
        }
        child = subprocess.Popen(
            hall.words("worker", hall.course),
            cwd=halls.TOP,
            stdin=subprocess.DEVNULL,
            env=variables,
        )
        for clean in (child.wait, child.terminate):
            self.addCleanup(clean)
        return child

    def try_draft(self, hall: ServedHall, token: str) -> None:
        """A draft is kept and tried, and its trial is over."""
        draft = hall.ask("GET", "/api/drafts/python", token).json()
        draft["files"]["agent.py"] += "# \u20ac\n"
        reply = hall.ask("PUT", "/api/drafts/python", token, draft)
        self.assertEqual(reply.json()["version"], 1)
        request = {**draft, "kind": "play", "network": "ring of 5"}
        made = hall.ask("POST", "/api/trials", token, request).json()
        path = f"/api/trials/{made['id']}"

        def over() -> Any:
            result = hall.ask("GET", path, token).json()
            return result if result["state"] == "over" else None

        result = hall.wait(over, "the trial is over")
        self.assertTrue(result["found"]["right"], result)

    def hall(self, name: str, database: str) -> HallFolder:
        """The folder of a hall that nobody serves, which is not made."""
        course = self.folder / f"{name}.toml"
        course.write_text(
            halls.COURSE.format(first=4100, last=4199, minutes=1, more=database)
        )
        return HallFolder(self.folder / f"{name}.hall", course, None)

    def output(self, *words: object, status: int = 0) -> str:
        """What a command of the lab says, or a script if the first word is -c."""
        first = [] if words[0] == "-c" else ["-m", "arena_lab", "hall"]
        result = subprocess.run(
            [sys.executable, *first, *map(str, words)],
            cwd=halls.TOP,
            text=True,
            stdin=subprocess.DEVNULL,
            stdout=subprocess.PIPE,
            stderr=subprocess.STDOUT,
        )
        self.assertEqual(result.returncode, status, result.stdout)
        return result.stdout

    def test_a_restore_goes_where_the_course_says_and_overwrites_nothing(self) -> None:
        """A hall over SQLite is restored to SQLite and PostgreSQL, and so is one over
        PostgreSQL."""
        for source in ("", self.create("first")):
            live = self.hall(f"live{len(source)}", source)
            live.write()
            self.output("keys", live.course)
            archive = live.folder.with_suffix(".tar.gz")
            self.output("-c", ADDS, live.folder)
            self.output("backup", live.course, archive)
            self.output("-c", ADDS, live.folder)
            before = self.output("-c", ROWS, live.folder)
            for target in ("", self.create(f"second{len(source)}")):
                new = self.hall(f"new{len(source)}{len(target)}", target)
                self.assertIn(
                    "as it stood", self.output("restore", new.course, archive)
                )
                self.assertEqual(
                    self.output("-c", ROWS, new.folder),
                    before.replace("odd odd", "odd"),
                )
                # the next row has a number of its own
                self.output("-c", ADDS, new.folder)
                self.assertEqual(self.output("-c", ROWS, new.folder), before)
                self.assertEqual(new.hall().database, new.to_serve().database)
            self.assertEqual(self.output("-c", ROWS, live.folder), before)

    def test_a_backup_of_rows_as_version_0_9_wrote_them(self) -> None:
        """It is restored to an empty database, and refused by one that has rows."""
        old = self.hall("old", self.create("old"))
        old.write()
        self.output("-c", EARLIER, old.folder)
        words = ["-h", "127.0.0.1", "-p", str(self.port), "-U", "hall", "old"]
        dump = [str(PROGRAMS[-1] / "pg_dump"), "--no-owner", *words]
        with (old.folder / "hall.sql").open("wb") as file:
            subprocess.run(dump, check=True, stdout=file)
        archive = self.folder / "old.tar.gz"
        pack_as_before(old, archive)
        new = self.hall("new", self.create("new"))
        self.assertIn("as it stood", self.output("restore", new.course, archive))
        self.assertEqual(self.output("-c", ROWS, new.folder), "('amber', 'd')\n\n")
        self.assertFalse((new.folder / "hall.sql").exists())
        again = self.output("restore", new.course, archive, "--aside", status=2)
        self.assertIn(f"name an empty database in {new.course}", again)
        self.assertEqual(self.output("-c", ROWS, new.folder), "('amber', 'd')\n\n")

    def test_a_database_that_has_rows_or_is_used_is_refused(self) -> None:
        live = self.hall(
            "live", f'database = "postgresql://hall@127.0.0.1:{self.port}/hall"'
        )
        live.write()
        self.output("keys", live.course)
        archive = self.folder / "copy.tar.gz"
        self.output("backup", live.course, archive)
        before = self.output("-c", ROWS, live.folder)
        second = self.hall(
            "second", f'database = "postgresql://hall@127.0.0.1:{self.port}/hall"'
        )
        name = f"postgresql://hall@127.0.0.1:{self.port}/hall"
        output = self.output("restore", second.course, archive, status=2)
        self.assertIn(f"{name} has rows", output)
        words = [sys.executable, "-c", HOLDS, str(live.folder)]
        with subprocess.Popen(
            words, stdin=subprocess.PIPE, stdout=subprocess.PIPE, cwd=halls.TOP
        ) as child:
            assert child.stdout is not None
            child.stdout.readline()
            output = self.output("restore", second.course, archive, "--aside", status=2)
            child.communicate()
        self.assertIn(f"{name} is in use", output)
        self.assertFalse(second.folder.exists())
        self.assertEqual(self.output("-c", ROWS, live.folder), before)

    def test_matches_go_on_whoever_is_killed(self) -> None:
        database = f'database = "postgresql://hall@127.0.0.1:{self.port}/hall"'
        extra = database + '\neditor = { languages = ["python"] }'
        with halls.serve_hall(extra, workers=0) as hall:
            tokens = hall.tokens()
            rest = [self.machine(hall), self.machine(hall)]
            first = hall.request_attempt(tokens["amber"])
            self.end_agents(play(hall.begins(tokens["amber"], first)))
            before = hall.over(tokens["amber"], first)
            self.assertEqual(
                (before["solved"], before["matches"][0]["host"]), (1, "localhost")
            )
            self.try_draft(hall, tokens["birch"])
            numbers = {
                name: hall.request_attempt(token) for name, token in tokens.items()
            }
            for name, number in numbers.items():
                hall.begins(tokens[name], number)
            for second in rest:
                second.kill()
            rest = [self.machine(hall)]
            for message in self.again(hall, numbers):
                self.end_agents(play(message))
            for name, number in numbers.items():
                self.assertEqual(hall.over(tokens[name], number)["solved"], 1)
            self.assertEqual(hall.servers(), [])
            self.assertEqual(
                halls.result_of(hall.over(tokens["amber"], first)),
                halls.result_of(before),
            )
            archive = self.folder / "hall.tar.gz"
            subprocess.run(
                hall.words("backup", hall.course, archive),
                check=True,
                cwd=halls.TOP,
                stdout=subprocess.DEVNULL,
            )
            number = hall.request_attempt(tokens["cedar"])
            hall.ask("POST", f"/api/matches/{number}/close", tokens["cedar"])
            hall.over(tokens["cedar"], number)
            hall.stop()
            for child in rest:
                child.terminate()
                child.wait()
            subprocess.run(
                hall.words("restore", hall.course, archive, "--aside"),
                check=True,
                cwd=halls.TOP,
                stdout=subprocess.DEVNULL,
            )
            rest.append(self.machine(hall))
            hall.start()
            self.assertEqual(
                hall.ask("GET", f"/api/matches/{number}", tokens["cedar"]).status, 404
            )
            self.assertEqual(
                halls.result_of(hall.over(tokens["amber"], first)),
                halls.result_of(before),
            )
            self.assertEqual(
                len(list(hall.folder.parent.glob("trial.hall.*/hall.sqlite3"))), 1
            )

    def again(
        self, hall: ServedHall, numbers: Dict[str, int]
    ) -> Iterator[Dict[str, Any]]:
        """The attempts once their second runs have begun."""
        for name, number in numbers.items():
            path = hall.folder / "attempts" / str(number) / "run2"
            hall.wait(path.exists, f"attempt {number} begins again")
            hall.wait(
                lambda: hall.servers(f"{number}/run2"), f"attempt {number} has a server"
            )
            yield hall.begins(hall.tokens()[name], number)
