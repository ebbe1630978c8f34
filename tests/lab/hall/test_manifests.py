"""What a backup says of itself."""
import io
import json
import pathlib
import sqlite3
import tarfile
import tempfile
import unittest

from arena_lab.hall.hall_files import HallError
from arena_lab.hall.manifests import (
    MANIFEST,
    hash_while_adding,
    summary_in,
    take_manifest,
)


class Manifests(unittest.TestCase):
    def setUp(self) -> None:
        self.folder = pathlib.Path(
            self.enterContext(tempfile.TemporaryDirectory(prefix="hall-"))
        )

    def test_a_file_that_was_changed_or_lost_is_named(self) -> None:
        entry = tarfile.TarInfo("a.txt")
        entry.size = 4
        archive = io.BytesIO()
        with tarfile.open(fileobj=archive, mode="w") as tar:
            # the file has grown after its size was read
            digest = hash_while_adding(tar, entry, io.BytesIO(b"text and more"))
        self.assertIn(b"text\0", archive.getvalue())
        text = json.dumps({"files": {"a.txt": digest}})
        for content, fault in (
            (b"text", ""),
            (b"Text", "a.txt is not as it was"),
            (None, "a.txt is missing"),
        ):
            (self.folder / MANIFEST).write_text(text)
            (self.folder / "a.txt").unlink(missing_ok=True)
            if content is not None:
                (self.folder / "a.txt").write_bytes(content)
            if fault:
                with self.assertRaisesRegex(HallError, fault):
                    take_manifest(self.folder)
            else:
                self.assertIn("a.txt", take_manifest(self.folder)["files"])
            self.assertFalse((self.folder / MANIFEST).exists())
        # backups of 0.9 have none
        self.assertEqual(take_manifest(self.folder), {})

    def test_rows_are_counted_and_tokens_digested(self) -> None:
        path = self.folder / "it.sqlite3"
        digests = set()
        for token in ("x", "y"):
            path.unlink(missing_ok=True)
            with sqlite3.connect(path) as database:
                database.execute("CREATE TABLE teams_team (name, digest)")
                database.execute("INSERT INTO teams_team VALUES ('amber', ?)", [token])
            database.close()
            summary = summary_in(path)
            self.assertEqual(summary["rows"], {"teams_team": 1})
            digests.add(summary["tokens"])
        self.assertEqual(len(digests), 2)
