"""Writes an archive of a running hall: a snapshot of its database as a file of SQLite,
whatever database it has, its secrets, the files of attempts and hand-ins, and a
manifest. Files that change meanwhile belong to unfinished attempts.

Restoring goes to the database that the course's file on the command line names. It
replaces nothing unless it is asked to move that aside."""
import contextlib
import io
import json
import os
import pathlib
import shutil
import sqlite3
import subprocess
import tarfile
import tempfile
import time
from typing import IO, Optional, cast

from arena_lab.hall.hall_files import HallError, read_hall
from arena_lab.hall.entry import begin
from arena_lab.hall.manifests import (
    MANIFEST,
    Manifest,
    summary_in,
    hash_while_adding,
    take_manifest,
)
from arena_lab.hall.place import HallFolder, at

DATABASE = "hall.sqlite3"
# the rows of PostgreSQL in a backup of version 0.9, in the place of the database
DUMP = "hall.sql"
# made anew at each start, or of this start alone
LEFT_OUT = ("lock",)


def write(hall_folder: HallFolder, archive: pathlib.Path) -> pathlib.Path:
    """Writes the archive, whole or not at all."""
    new = archive.with_name(f".{archive.name}.new")
    top = hall_folder.folder.name
    with tempfile.TemporaryDirectory() as apart:
        with open(
            os.open(new, os.O_WRONLY | os.O_CREAT | os.O_TRUNC, 0o600), "wb"
        ) as file, tarfile.open(fileobj=file, mode="w:gz") as tar:
            database = dump_database(pathlib.Path(apart))
            tar.add(hall_folder.course, hall_folder.course.name)
            digests = {DATABASE: add(tar, database, f"{top}/{DATABASE}")}
            for folder, folders, files in os.walk(hall_folder.folder):
                for path in (pathlib.Path(folder, name) for name in (*folders, *files)):
                    inner = str(path.relative_to(hall_folder.folder))
                    with contextlib.suppress(FileNotFoundError):
                        digests[inner] = add(tar, path, f"{top}/{inner}", is_own=True)
            content = {path: digest for path, digest in digests.items() if digest}
            manifest = json.dumps({**summary_in(database), "files": content}).encode()
            entry_of_manifest = tarfile.TarInfo(f"{top}/{MANIFEST}")
            entry_of_manifest.size = len(manifest)
            tar.addfile(entry_of_manifest, io.BytesIO(manifest))
    new.replace(archive)
    return archive


def add(
    tar: tarfile.TarFile, path: pathlib.Path, name: str, is_own: bool = False
) -> str:
    """Adds a file or folder, unless it is one of the hall's own that is left out.
    Returns the digest of a file."""
    entry_of_path: Optional[tarfile.TarInfo] = tar.gettarinfo(path, name)
    if is_own and entry_of_path is not None:
        entry_of_path = filter_entry(entry_of_path)
    if entry_of_path is None:
        return ""
    if not entry_of_path.isfile():
        tar.addfile(entry_of_path)
        return ""
    with path.open("rb") as file:
        return hash_while_adding(tar, entry_of_path, file)


def filter_entry(entry: tarfile.TarInfo) -> Optional[tarfile.TarInfo]:
    """An entry of the hall's folder, unless it is left out."""
    name = entry.name.partition("/")[2]
    is_out = (
        name.partition("/")[0] in LEFT_OUT
        or name.startswith(DATABASE)
        or name.endswith(".new")
    )
    return None if is_out else entry


def dump_database(folder: pathlib.Path) -> pathlib.Path:
    """A copy of the database as it stands now."""
    from arena_lab.hall import rows

    path = folder / DATABASE
    rows.dump(path)
    return path


def postgres(program: str, *words: str) -> None:
    """Runs a program of PostgreSQL on the hall's database."""
    from django.db import connection

    connection_params = connection.get_connection_params()
    names = {
        "PGUSER": "user",
        "PGPASSWORD": "password",
        "PGHOST": "host",
        "PGPORT": "port",
        "PGDATABASE": "dbname" if "dbname" in connection_params else "database",
    }
    variables = {
        name: str(connection_params[key])
        for name, key in names.items()
        if connection_params.get(key)
    }
    try:
        subprocess.run(
            [program, *words],
            check=True,
            capture_output=True,
            env={**os.environ, **variables},
        )
    except (OSError, subprocess.CalledProcessError) as fault:
        raise HallError(
            f"{program} does not do its part: {getattr(fault, 'stderr', b'') or fault}"
        ) from None


def restore(
    hall_folder: HallFolder, archive: pathlib.Path, may_move: bool
) -> Optional[pathlib.Path]:
    """Makes the hall of an archive. Moves an existing hall to a folder beside it, which
    is returned; raises HallError instead unless `may_move`. A broken archive changes
    nothing."""
    folder = hall_folder.folder
    if folder.exists() and not may_move:
        raise HallError(
            f"{folder}: there is a hall already. Say --aside to move it beside that, or --folder for another folder"
        )
    new = folder.with_name(f".{folder.name}.new")
    shutil.rmtree(new, ignore_errors=True)
    try:
        manifest = unpack_backup(archive, new)
        program = at(new).program
        HallFolder(new, hall_folder.course, program).write(
            read_hall(hall_folder.course)
        )
        begin(str(new))
        fill(hall_folder, new, manifest, may_move)
        aside = None
        if folder.exists():
            aside = folder.with_name(
                f"{folder.name}.{time.strftime('%Y-%m-%d-%H%M%S')}"
            )
            folder.rename(aside)
        new.rename(folder)
    finally:
        shutil.rmtree(new, ignore_errors=True)
    return aside


def unpack_backup(archive: pathlib.Path, new: pathlib.Path) -> Manifest:
    """Unpacks an archive, and returns its manifest; raises HallError if it is
    broken."""
    try:
        unpack(archive, new)
        manifest = take_manifest(new)
        check_database(new)
        at(new)
    except (OSError, EOFError, ValueError, tarfile.TarError, HallError) as fault:
        raise HallError(f"{archive}: no hall can be restored of it: {fault}") from None
    return manifest


def fill(
    hall_folder: HallFolder, new: pathlib.Path, manifest: Manifest, may_move: bool
) -> None:
    """Puts the rows of an unpacked archive into the database of the course, and
    compares them. Django has begun in the folder `new`."""
    from django.db import DatabaseError, connection

    from arena_lab.hall import rows

    name = rows.database_name()
    try:
        if connection.vendor == "sqlite":
            if (new / DUMP).exists():
                raise HallError(
                    f"this backup of 0.9 needs PostgreSQL: write `database` into {hall_folder.course}"
                )
            rows.migrate()
        else:
            fill_postgres(hall_folder, new, may_move)
        different = rows.differences(manifest) if manifest else []
        connection.close()
    except DatabaseError as fault:
        raise HallError(f"{name}: {str(fault).strip()}") from None
    if different:
        raise HallError(f"{name} is not as the backup: look at {', '.join(different)}")


def fill_postgres(hall_folder: HallFolder, new: pathlib.Path, may_move: bool) -> None:
    """Puts the rows into PostgreSQL, which nobody uses. Rows that it has are written to
    the folder that is moved aside."""
    from arena_lab.hall import rows

    name = rows.database_name()
    if rows.other_users():
        raise HallError(f"{name} is in use: end the hall that is served of it first")
    tables = rows.tables_with_rows()
    dump = new / DUMP
    if tables and (not may_move or dump.exists()):
        move = "" if dump.exists() else ", or say --aside to move its rows"
        raise HallError(
            f"{name} has rows ({tables[0]} ..): name an empty database in {hall_folder.course}{move}"
        )
    if dump.exists():
        empty = "DROP SCHEMA public CASCADE; CREATE SCHEMA public"
        postgres("psql", "-1qv", "ON_ERROR_STOP=1", "-c", empty, "-f", str(dump))
        dump.unlink()
        return rows.migrate()
    rows.migrate()
    if tables:
        hall_folder.make()
        (hall_folder.folder / DATABASE).unlink(missing_ok=True)
        rows.dump(hall_folder.folder / DATABASE)
    with rows.open_copy(new / DATABASE):
        rows.copy(rows.COPY, "default")
    (new / DATABASE).unlink()


def unpack(archive: pathlib.Path, folder: pathlib.Path) -> None:
    """Unpacks the folder of a hall; its name does not matter."""
    with tarfile.open(archive) as tar:
        for entry in tar:
            parts = pathlib.PurePosixPath(entry.name).parts[1:]
            if ".." in parts or not (entry.isfile() and parts or entry.isdir()):
                continue
            path = folder.joinpath(*parts)
            (path if entry.isdir() else path.parent).mkdir(
                mode=0o700, parents=True, exist_ok=True
            )
            content = tar.extractfile(entry)
            if content is not None:
                with content, open(
                    os.open(path, os.O_WRONLY | os.O_CREAT, 0o600), "wb"
                ) as file:
                    shutil.copyfileobj(content, file)


def take_course(archive: pathlib.Path, course: pathlib.Path) -> None:
    """Writes the archive's course file if this machine has none."""
    if course.exists():
        return
    try:
        with tarfile.open(archive) as tar:
            entry = next(
                entry_file
                for entry_file in tar
                if entry_file.isfile() and "/" not in entry_file.name
            )
            with cast(IO[bytes], tar.extractfile(entry)) as file:
                course.write_bytes(file.read())
    except (OSError, EOFError, tarfile.TarError, StopIteration) as fault:
        raise HallError(f"{archive}: it has no course: {fault}") from None


def check_database(folder: pathlib.Path) -> None:
    """Refuses a folder whose database is not whole."""
    if (folder / DUMP).exists():
        return
    if not (folder / DATABASE).exists():
        raise HallError("it has no database")
    with contextlib.closing(sqlite3.connect(folder / DATABASE)) as database:
        try:
            row = database.execute("PRAGMA integrity_check").fetchone()
        except sqlite3.DatabaseError as fault:
            row = (str(fault),)
    if row != ("ok",):
        raise HallError(f"its database is broken: {row[0]}")
