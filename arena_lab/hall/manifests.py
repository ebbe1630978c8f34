"""What a backup says of itself: how many rows each table has, the digest of its teams'
tokens, and the digest of each file. A restore compares the hall with its manifest."""
import contextlib
import hashlib
import json
import pathlib
import sqlite3
import tarfile
import types
from typing import IO, Any, Dict, List, cast

from arena_lab.hall.hall_files import HallError

MANIFEST = "manifest.json"
Manifest = Dict[str, Any]


def hash_while_adding(tar: tarfile.TarFile, entry: tarfile.TarInfo, file: Any) -> str:
    """Adds a file to an archive; returns the digest of what the archive has of it, as
    the file may change meanwhile."""
    digest = hashlib.sha256()

    def take_bytes(size: int = -1) -> bytes:
        data: bytes = file.read(size)
        digest.update(data)
        return data

    reader = types.SimpleNamespace(read=take_bytes)
    tar.addfile(entry, cast(IO[bytes], reader))
    return digest.hexdigest()


def summary_of(cursor: Any, tables: List[str]) -> Manifest:
    """Counts the rows of tables, and digests the names and tokens of teams."""
    counts = {}
    for table in tables:
        cursor.execute(f'SELECT count(*) FROM "{table}"')
        counts[table] = cursor.fetchone()[0]
    tokens = hashlib.sha256()
    if "teams_team" in tables:
        cursor.execute("SELECT name, digest FROM teams_team")
        tokens.update(repr(sorted(map(tuple, cursor.fetchall()))).encode())
    return {"rows": counts, "tokens": tokens.hexdigest()}


def summary_in(path: pathlib.Path) -> Manifest:
    """Summarises a database of SQLite."""
    with contextlib.closing(sqlite3.connect(path)) as database:
        names = database.execute("SELECT name FROM sqlite_master WHERE type = 'table'")
        tables = [name for (name,) in names if not name.startswith("sqlite_")]
        return summary_of(database.cursor(), sorted(tables))


def take_manifest(folder: pathlib.Path) -> Manifest:
    """Removes the manifest of an unpacked backup, and returns it; backups of 0.9 have
    none. Raises HallError if a file is not as it was written."""
    path = folder / MANIFEST
    if not path.exists():
        return {}
    manifest: Manifest = json.loads(path.read_text(encoding="utf-8"))
    path.unlink()
    for name, digest in manifest["files"].items():
        file = folder / name
        if not file.is_file():
            raise HallError(f"{name} is missing")
        if hashlib.sha256(file.read_bytes()).hexdigest() != digest:
            raise HallError(f"{name} is not as it was written")
    return manifest
