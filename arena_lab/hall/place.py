"""The folder of a hall: which course it is of, which program plays, its database, its
secrets and all files of attempts and hand-ins. Only the user who runs the hall may look
into it, since files of matches have their black holes."""
import contextlib
import json
import os
import pathlib
import secrets
import shutil
import sys
import tempfile
import zlib
from typing import NamedTuple, Optional

from arena_lab.hall.hall_files import Hall, HallError, read_hall

VARIABLE = "ARENA_HALL"
PLACE_FILE = "hall.json"
KEY = "key.txt"
SECRET = "secret.txt"
PASSWORD = "password.txt"
# with this behind it a password is looked at however many were wrong
LOGIN = "login.txt"
# who says this is who writes on a machine of their own, by `arena-lab try`
OWNER = "owner.txt"
# the course's file as it was when the hall was started last
COURSE_COPY = "course.toml"


class HallFolder(NamedTuple):
    """A hall's folder, the file of its course, and the program, or None for the
    stand-in in Python."""

    folder: pathlib.Path
    course: pathlib.Path
    program: Optional[str]

    def hall(self) -> Hall:
        """The course as it was when the hall was started: what is saved meanwhile is
        read at the next start."""
        copy = self.folder / COURSE_COPY
        return read_hall(self.course, copy if copy.exists() else None)

    def to_serve(self) -> Hall:
        """Reads the course for a start, without writing. If its file is invalid, it
        prints the error and returns the course of the last start, so that a hall
        restarts in any case."""
        try:
            return read_hall(self.course)
        except HallError as fault:
            if not (self.folder / COURSE_COPY).exists():
                raise
            log_line(
                f"{fault}; until you mend it, the hall goes on by the file of its last start"
            )
            return self.hall()

    def make(self) -> None:
        """Makes the folder, which nobody else may read."""
        self.folder.mkdir(mode=0o700, parents=True, exist_ok=True)
        self.folder.chmod(0o700)

    def write(self, hall: Optional[Hall] = None) -> None:
        """Creates the folder and records the course file and the program."""
        self.make()
        record = {"course": str(self.course.resolve()), "program": self.program}
        write_whole(self.folder / PLACE_FILE, json.dumps(record) + "\n")
        if hall is not None:
            write_whole(self.folder / COURSE_COPY, hall.text)

    def secret(self, name: str) -> str:
        """A secret of the hall, which is drawn when it is first asked for."""
        path = self.folder / name
        try:
            with open(
                os.open(path, os.O_WRONLY | os.O_CREAT | os.O_EXCL, 0o600),
                "w",
                encoding="utf-8",
            ) as file:
                file.write(secrets.token_hex(32) + "\n")
        except FileExistsError:
            pass
        return path.read_text(encoding="utf-8").strip()


def leave(folder: pathlib.Path, owner: os.stat_result) -> None:
    """Leaves what root has made in a hall's folder to the user who runs the hall."""
    if os.geteuid() == 0 and owner.st_uid != 0:
        for path in [folder, *folder.rglob("*")]:
            os.chown(path, owner.st_uid, owner.st_gid, follow_symlinks=False)


def temporary_of(folder: pathlib.Path) -> str:
    """With what the names of temporary folders of a hall begin."""
    return f"lab-{zlib.crc32(str(folder).encode()):08x}-"


def remove_left(folder: pathlib.Path) -> None:
    """Removes what processes that were killed have left: hand-ins that are not taken
    yet, and temporary files of gradings. Nobody serves the hall meanwhile."""
    temporary = pathlib.Path(tempfile.gettempdir())
    for leftover in (
        *folder.glob("hand-ins/new-*"),
        *temporary.glob(f"{temporary_of(folder)}*"),
    ):
        shutil.rmtree(leftover, ignore_errors=True)


def folder_of(course: pathlib.Path) -> pathlib.Path:
    """Returns the default folder of a course's hall."""
    return course.resolve().with_suffix(".hall")


def at(folder: pathlib.Path) -> HallFolder:
    """Opens the hall folder; raises HallError if it has no record of a hall."""
    try:
        record = json.loads((folder / PLACE_FILE).read_text(encoding="utf-8"))
    except FileNotFoundError:
        raise HallError(
            f"{folder}: there is no hall: start one by `arena-lab hall COURSE.toml`"
        ) from None
    return HallFolder(folder, pathlib.Path(record["course"]), record["program"])


def current() -> HallFolder:
    """The place of the hall that this process belongs to."""
    folder = os.environ.get(VARIABLE)
    if not folder:
        raise HallError(f"{VARIABLE} names no hall")
    return at(pathlib.Path(folder))


def log_line(line: str) -> None:
    """Says a line to whoever runs the hall. A full disk, which may not take it, ends
    nothing."""
    with contextlib.suppress(OSError):
        print(f"hall: {line}", file=sys.stderr, flush=True)


def write_whole(path: pathlib.Path, text: str) -> None:
    """Writes a file that nobody else may read, whole or not at all."""
    new = path.with_name(f".{path.name}.new")
    new.touch(mode=0o600)
    new.write_text(text, encoding="utf-8")
    new.replace(path)
