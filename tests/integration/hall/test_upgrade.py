"""A hall of an earlier version is taken along: practice, hand-ins and teams stay, and
what was rated is practice."""
import contextlib
import os
import pathlib
import shutil
import sqlite3
import subprocess
import sys
import tarfile
import tempfile
import unittest
from typing import Any

from arena_lab.hall.place import HallFolder
from arena_lab.support.built import TOP
from tests.support.halls import COURSE

# makes the tables as they were, with a match of practice, a rated series with a trap, a
# match of a contest, a hand-in with both gradings, and an unveiling
EARLIER = """
import sys
from arena_lab.hall import entry
entry.begin(sys.argv[1])
from django.core.management import call_command
from django.db import connection
from django.db.migrations.executor import MigrationExecutor
from django.utils import timezone
AT = [("attempts", "0002_traps"), ("handins", "0001_initial"), ("standings", "0001_initial")]
for app, name in AT:
    call_command("migrate", app, name, verbosity=0)
apps = MigrationExecutor(connection).loader.project_state(AT).apps
def made(app, model, **given):
    return apps.get_model(app, model).objects.create(**given)
team = made("teams", "Team", name="amber", digest="d")
made("teams", "Grant", team=team, kind="rated", network="ring of 5")
contest = made("attempts", "Contest", network="ring of 5", start=timezone.now())
series = {"kind": "rated", "series": 3, "traps": 1}
for given in ({"kind": "practice"}, series, {"kind": "contest", "contest": contest}):
    attempt = made("attempts", "Attempt", team=team, network="ring of 5", state="over", **given)
    for number in range(given.get("series", 1)):
        made("attempts", "Match", attempt=attempt, number=number, run=1, host="h", port=1, keys=[], outcome="solved",
             is_trap=number == 2)
hand_in = made("handins", "HandIn", team=team, name="a.py", size=1, files=1, digest="d")
for is_secret in (False, True):
    made("handins", "Grading", hand_in=hand_in, is_secret=is_secret, state="over", solved=1, matches=1)
made("standings", "Reveal")
"""
SAID = "hall: 2 rated attempts and matches of contests are practice now: only hand-ins are ranked"


def pack_as_before(hall: HallFolder, archive: pathlib.Path) -> None:
    """Packs the folder of a hall as version 0.9 did: with no manifest, and no lock."""
    with tarfile.open(archive, "w:gz") as tar:
        tar.add(hall.course, hall.course.name)
        for path in hall.folder.iterdir():
            if path.name != "lock":
                tar.add(path, f"{hall.folder.name}/{path.name}")


class Upgrade(unittest.TestCase):
    def setUp(self) -> None:
        self.folder = pathlib.Path(
            self.enterContext(tempfile.TemporaryDirectory(prefix="hall-"))
        )
        self.course = self.folder / "trial.toml"
        self.course.write_text(COURSE.format(first=4100, last=4199, minutes=1, more=""))
        self.hall = HallFolder(self.folder / "trial.hall", self.course, None)
        self.hall.write()

    def output(self, *words: object, status: int = 0) -> str:
        result = subprocess.run(
            [sys.executable, *map(str, words)],
            cwd=TOP,
            text=True,
            stdin=subprocess.DEVNULL,
            stdout=subprocess.DEVNULL,
            stderr=subprocess.PIPE,
            timeout=300,
        )
        self.assertEqual(result.returncode, status, result.stderr)
        return result.stderr

    def restore(self, archive: pathlib.Path, status: int = 0) -> str:
        words = ("-m", "arena_lab", "hall", "restore", self.course, archive)
        return self.output(*words, status=status)

    def test_a_backup_of_an_earlier_version_is_restored(self) -> None:
        self.output("-c", EARLIER, self.hall.folder)
        archive = self.folder / "before.tar.gz"
        pack_as_before(self.hall, archive)
        shutil.rmtree(self.hall.folder)
        self.assertIn(SAID, self.restore(archive))
        self.assertEqual(self.rows("name, digest FROM teams_team"), [("amber", "d")])
        self.assertEqual(self.rows("count(*) FROM handins_grading"), [(2,)])

    def test_a_backup_of_rows_of_postgresql_is_refused_where_there_is_none(
        self,
    ) -> None:
        archive = self.folder / "before.tar.gz"
        (self.hall.folder / "hall.sql").write_text("SELECT 1;")
        pack_as_before(self.hall, archive)
        shutil.rmtree(self.hall.folder)
        refusal = (
            f"this backup of 0.9 needs PostgreSQL: write `database` into {self.course}"
        )
        self.assertIn(refusal, self.restore(archive, status=2))
        self.assertFalse(self.hall.folder.exists())

    @unittest.skipUnless(os.geteuid() == 0, "this is not root")
    def test_what_root_does_is_left_to_the_user_of_the_hall(self) -> None:
        os.chown(self.hall.folder, 65534, 65534)
        self.output("-m", "arena_lab", "hall", "keys", self.course)
        self.output("-m", "arena_lab", "hall", "password", self.course)
        results = {path.name: path.stat().st_uid for path in self.hall.folder.iterdir()}
        self.assertEqual(set(results.values()), {65534}, results)
        self.assertIn("keys.csv", results)

    def rows(self, what: str) -> Any:
        with contextlib.closing(
            sqlite3.connect(self.hall.folder / "hall.sqlite3")
        ) as database:
            return database.execute(f"SELECT {what}").fetchall()

    def test_what_was_played_stays_and_what_was_rated_is_practice(self) -> None:
        self.output("-c", EARLIER, self.hall.folder)
        keys = ("-m", "arena_lab", "hall", "keys", self.course)
        self.assertEqual(
            [self.output(*keys).count(SAID), self.output(*keys).count(SAID)], [1, 0]
        )
        self.assertEqual(
            self.rows("count(*) FROM teams_entry WHERE what LIKE '%practice now%'"),
            [(1,)],
        )
        self.assertEqual(
            self.rows("attempt_id, count(*) FROM attempts_match GROUP BY attempt_id"),
            [(1, 1), (2, 3), (3, 1)],
        )
        self.assertEqual(
            self.rows("digest FROM teams_team WHERE name = 'amber'"), [("d",)]
        )
        self.assertEqual(self.rows("contest_id FROM handins_handin"), [(None,)])
        self.assertEqual(self.rows("count(*) FROM handins_grading"), [(2,)])
        # the unveiling had shown the marks of programs too
        self.assertEqual(
            self.rows("what FROM standings_reveal ORDER BY id"),
            [("freeze",), ("secret",)],
        )
