"""Reads the files and folders of a hand-in once, and keeps them as an archive. Each
program of the team gets its own copy.

No link is followed, as what it leads to may be another's: a link is handed in as a
link. What is neither file, folder nor link is left out. A hand-in has bounds, and one
beyond them is refused by a line that says which.
"""
import contextlib
import errno
import hashlib
import io
import itertools
import os
import pathlib
import stat
import tarfile
import tempfile
from typing import Dict, Iterator, NamedTuple, Optional, Sequence, Tuple

from arena_lab.play.imports import SUFFIX, files_behind
from arena_lab.support.faults import ArenaError

MAX_BYTES = 32 << 20
MAX_FILES = 2_000
MAX_DEPTH = 32
# the file of the network, for programs that have the map
NETWORK = "network.toml"


class SubmissionError(ArenaError):
    """A submission is refused; the text says why, or what to change."""


class SubmissionEntry(NamedTuple):
    """A file, a folder or a link: what kind it is, and a file's content or where a link
    leads."""

    kind: bytes
    content: bytes = b""
    is_program: bool = False


class Submission(NamedTuple):
    """The files and folders of a team by name, each folder before its contents; or the
    reason for a refusal."""

    entries: Dict[str, SubmissionEntry]
    refusal: str = ""

    def digest(self) -> str:
        """Returns the SHA-256 over all entries and the refusal."""
        digest = hashlib.sha256(self.refusal.encode())
        for name, entry in self.entries.items():
            for part in (
                os.fsencode(name),
                entry.kind,
                entry.content,
                b"x" if entry.is_program else b"-",
            ):
                digest.update(b"%d:" % len(part) + part)
        return digest.hexdigest()

    def digests(self, words: str) -> Dict[str, str]:
        """Returns the SHA-256 of each file that a command line names, and of the files
        that those import, by name in the hand-in."""
        names = {
            str(pathlib.PurePath(word.partition(":")[0])) for word in words.split()
        }
        contents = {
            name: entry.content
            for name, entry in self.entries.items()
            if entry.kind == tarfile.REGTYPE
            and (name in names or name.endswith(SUFFIX))
        }
        with tempfile.TemporaryDirectory() as directory:
            folder = pathlib.Path(directory).resolve()
            for name, content in contents.items():
                # one whose name is too long here is imported by nobody
                with contextlib.suppress(OSError):
                    (folder / name).parent.mkdir(parents=True, exist_ok=True)
                    (folder / name).write_bytes(content)
            behind = [
                files_behind(folder / name)
                for name in names
                if (folder / name).is_file()
            ]
            return {
                os.path.relpath(name, folder): digest
                for file in behind
                for name, digest in file.items()
            }

    def content_of(self, name: str) -> Optional[bytes]:
        """Returns the bytes of a regular file of the hand-in, else None."""
        entry = self.entries.get(os.path.normpath(name))
        return (
            entry.content
            if entry is not None and entry.kind == tarfile.REGTYPE
            else None
        )

    def write_file(self, name: str, folder: pathlib.Path) -> None:
        """Writes a regular file of the hand-in below a folder."""
        content = self.content_of(name)
        path = folder / os.path.normpath(name)
        if content is not None:
            path.parent.mkdir(parents=True, exist_ok=True)
            path.write_bytes(content)

    def archive(self, **extra: bytes) -> bytes:
        """All of it as a tar archive, and more files by their names."""
        entries = dict(self.entries)
        for name, content in extra.items():
            put_entry(entries, name, SubmissionEntry(tarfile.REGTYPE, content))
        buffer = io.BytesIO()
        with tarfile.open(fileobj=buffer, mode="w", format=tarfile.GNU_FORMAT) as tar:
            for name, entry in entries.items():
                head = tarfile.TarInfo(name)
                head.type = entry.kind
                head.mode = 0o600 if entry.kind == tarfile.REGTYPE else 0o700
                head.mode |= 0o100 if entry.is_program else 0
                if entry.kind == tarfile.SYMTYPE:
                    head.linkname = os.fsdecode(entry.content)
                    tar.addfile(head)
                else:
                    head.size = len(entry.content)
                    tar.addfile(head, io.BytesIO(entry.content))
        return buffer.getvalue()


def read_archive(archive: bytes, refusal: str = "") -> Submission:
    """The hand-in of an archive that `archive` has made."""
    entries: Dict[str, SubmissionEntry] = {}
    with tarfile.open(fileobj=io.BytesIO(archive)) as tar:
        for head in tar:
            file = tar.extractfile(head) if head.isreg() else None
            content = (
                file.read()
                if file
                else os.fsencode(head.linkname)
                if head.issym()
                else b""
            )
            entries[head.name] = SubmissionEntry(
                head.type, content, head.isreg() and bool(head.mode & 0o100)
            )
    return Submission(entries, refusal)


def read_paths(paths: Sequence[pathlib.Path], course: pathlib.Path) -> Submission:
    """Reads the paths that a course file lists into a hand-in. A later path replaces
    earlier entries of the same name."""
    entries: Dict[str, SubmissionEntry] = {}
    try:
        bytes_left = MAX_BYTES
        for name, path in [file for path in paths for file in walk_files(path, course)]:
            entry = entry_at(path, bytes_left)
            if entry is None:
                continue
            bytes_left -= len(entry.content)
            put_entry(entries, name, entry)
        return Submission(entries)
    except SubmissionError as fault:
        return Submission({}, str(fault))
    except OSError as fault:
        return Submission({}, f"its files cannot be read: {fault.strerror}")


def walk_files(path: pathlib.Path, course: pathlib.Path) -> Iterator[Tuple[str, str]]:
    """Yields (name in the hand-in, path) for a file, or for everything below a
    folder."""
    parents = [
        parent
        for parent in path.parents
        if parent != course and parent.is_relative_to(course)
    ]
    for link in filter(os.path.islink, [path, *parents]):
        raise SubmissionError(f"{link.name} is a link: name what it leads to")
    top = str(path)
    if not os.path.isdir(top):
        yield path.name, top
        return
    count = 0
    waiting = [("", top, 0)]
    while waiting:
        prefix, folder, depth = waiting.pop()
        if depth > MAX_DEPTH:
            raise SubmissionError(f"its folders are more than {MAX_DEPTH} deep")
        with os.scandir(folder) as entries:
            entry_list = list(itertools.islice(entries, MAX_FILES + 1))
        count += len(entry_list)
        if count > MAX_FILES:
            raise SubmissionError(f"it has more than {MAX_FILES} files and folders")
        for inside in sorted(entry_list, key=lambda entry: os.fsencode(entry.name)):
            yield prefix + inside.name, inside.path
            if inside.is_dir(follow_symlinks=False):
                waiting.append((f"{prefix}{inside.name}/", inside.path, depth + 1))


def entry_at(path: str, limit: int) -> Optional[SubmissionEntry]:
    """Reads the entry at a path, of at most `limit` bytes; None if it is neither file,
    folder nor link."""
    mode = os.lstat(path).st_mode
    if stat.S_ISLNK(mode):
        return SubmissionEntry(tarfile.SYMTYPE, os.fsencode(os.readlink(path)))
    if stat.S_ISDIR(mode):
        return SubmissionEntry(tarfile.DIRTYPE)
    if not stat.S_ISREG(mode):
        return None
    try:
        descriptor = os.open(path, os.O_RDONLY | os.O_NOFOLLOW | os.O_NONBLOCK)
    except OSError as fault:
        if fault.errno == errno.ELOOP:
            return None
        raise
    with open(descriptor, "rb") as file:
        content = file.read(limit + 1)
        if len(content) > limit:
            raise SubmissionError(f"its files have more than {MAX_BYTES >> 20} MB")
        return SubmissionEntry(
            tarfile.REGTYPE, content, bool(os.fstat(descriptor).st_mode & 0o111)
        )


def put_entry(
    entries: Dict[str, SubmissionEntry], name: str, entry: SubmissionEntry
) -> None:
    """Stores an entry. Entries that would make writing it follow a link are replaced by
    folders."""
    parts = name.split("/")
    for above in ("/".join(parts[:count]) for count in range(1, len(parts))):
        if entries.get(above, entry).kind != tarfile.DIRTYPE:
            entries[above] = SubmissionEntry(tarfile.DIRTYPE)
    if entry.kind != tarfile.DIRTYPE and name in entries:
        for inside in [entry for entry in entries if entry.startswith(f"{name}/")]:
            del entries[inside]
    entries[name] = entry
