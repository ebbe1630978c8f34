"""Unpacks what a team hands in, within bounds: a file, or a zip. Nothing is written
outside the folder, no link is made, and what would take too much room is refused before
it takes it.

A process of its own does so, which has bounds of memory and time: whatever strangers
put into an archive, and whatever reads archives, the web server goes on. Entries are
stored or deflated, since Python reads pieces of other methods whole.
"""
import hashlib
import io
import json
import pathlib
import re
import resource
import subprocess
import sys
import threading
import zipfile
from typing import Dict, Iterator, List, Mapping, NamedTuple

from arena_lab.play.imports import names_in
from arena_lab.submissions.submission import MAX_BYTES, MAX_FILES, SubmissionError
from arena_lab.support.built import TOP

# bytes of what is sent
MAX_SENT = 8 << 20
# folders, of which each takes room of the disk in each copy, and how deep they are
MAX_FOLDERS = 64
MAX_DEPTH = 8
PART = re.compile(r"[^/\\\0-\x1f\x7f]{1,100}")
# bytes of the name of a file or a folder, and of all names that lead to a file: what a
# disk takes
MAX_NAME = 200
MAX_PATH = 1_000
# the module of the kits by which a program in Python connects
CLIENT = "client"
# with what each entry of a zip's list begins
ENTRY = b"PK\x01\x02"
PIECE = 64 << 10
METHODS = (zipfile.ZIP_STORED, zipfile.ZIP_DEFLATED)
# bytes of memory and seconds that the process may take, and how many there are at a
# time
MEMORY = 100 << 20
SECONDS = 20
CANNOT = f"it cannot be unpacked within {SECONDS} s and {MEMORY >> 20} MB of memory"
SLOTS = threading.BoundedSemaphore(4)
UNPACKS = (
    f"import sys; sys.path.insert(0, {str(TOP)!r}); "
    "from arena_lab.submissions import uploads; uploads.main()"
)
# its status where the disk takes no more
CANNOT_WRITE = 3


class UploadedFiles(NamedTuple):
    """Unpacked files: total bytes, number of files, and the SHA-256 over names and
    contents."""

    size: int
    files: int
    digest: str


def unpack_upload(data: bytes, name: str, folder: pathlib.Path) -> UploadedFiles:
    """Unpacks a zip into a folder, which is made, or writes the one file that is handed
    in, which gets this name. Raises SubmissionError, or OSError where the disk is full.
    """
    if len(data) > MAX_SENT:
        raise SubmissionError(f"it has more than {MAX_SENT >> 20} MB")
    with SLOTS:
        try:
            result = subprocess.run(
                [sys.executable, "-c", UNPACKS, str(folder), name],
                input=data,
                capture_output=True,
                timeout=SECONDS,
            )
            reply = json.loads(result.stdout)
        except (subprocess.TimeoutExpired, ValueError):
            raise SubmissionError(CANNOT) from None
    if result.returncode == CANNOT_WRITE:
        raise OSError(reply)
    if result.returncode:
        raise SubmissionError(reply)
    return UploadedFiles(*reply)


def write_texts(texts: Mapping[str, str], folder: pathlib.Path) -> UploadedFiles:
    """Writes texts into a folder, which is made, by the names of their files, which
    have no folders."""
    folder.mkdir(mode=0o700, parents=True)
    for name, text in texts.items():
        (folder / name).write_text(text, encoding="utf-8", newline="\n")
    return measure_folder(folder)


def main() -> None:
    """The process that unpacks what its standard input has."""
    for kind, limit in (
        (resource.RLIMIT_AS, MEMORY),
        (resource.RLIMIT_CPU, SECONDS),
        (resource.RLIMIT_FSIZE, MAX_BYTES),
        (resource.RLIMIT_CORE, 0),
    ):
        resource.setrlimit(kind, (limit, limit))
    # if memory is short, this process ends first
    pathlib.Path("/proc/self/oom_score_adj").write_text("1000")
    folder = pathlib.Path(sys.argv[1])
    try:
        write_upload(sys.stdin.buffer.read(MAX_SENT + 1), sys.argv[2], folder)
        print(json.dumps(measure_folder(folder)))
    except (SubmissionError, OSError) as fault:
        print(json.dumps(str(fault)))
        sys.exit(1 if isinstance(fault, SubmissionError) else CANNOT_WRITE)


def write_upload(data: bytes, name: str, folder: pathlib.Path) -> None:
    """Writes the files of a zip, or the one file."""
    if not data:
        raise SubmissionError("it is empty")
    folder.mkdir(mode=0o700, parents=True)
    # whoever reads the list of a zip makes an object of each entry, also of folders
    if data.count(ENTRY) > 2 * MAX_FILES:
        raise SubmissionError(f"it has more than {MAX_FILES} files")
    if not zipfile.is_zipfile(io.BytesIO(data)):
        (folder / name).write_bytes(data)
        return
    with open_zip(data) as archive:
        names = without_top(check_names(archive))
        bytes_left = MAX_BYTES
        for entry, name in names.items():
            path = folder / name
            path.parent.mkdir(parents=True, exist_ok=True)
            with path.open("wb") as file:
                for piece in pieces(archive, entry):
                    bytes_left -= len(piece)
                    if bytes_left < 0:
                        raise SubmissionError(
                            f"its files have more than {MAX_BYTES >> 20} MB"
                        )
                    file.write(piece)


def unreadable(fault: Exception) -> SubmissionError:
    """Returns the error for a broken zip."""
    return SubmissionError(
        f"the zip cannot be read: {str(fault)[:100] or type(fault).__name__}"
    )


def open_zip(data: bytes) -> zipfile.ZipFile:
    try:
        return zipfile.ZipFile(io.BytesIO(data))
    except Exception as fault:
        raise unreadable(fault) from None


def pieces(archive: zipfile.ZipFile, entry: str) -> Iterator[bytes]:
    """The content of an entry, piece by piece."""
    try:
        with archive.open(entry) as file:
            while piece := file.read(PIECE):
                yield piece
    except Exception as fault:
        raise unreadable(fault) from None


def check_names(archive: zipfile.ZipFile) -> List[str]:
    """Returns the names of a zip's files. Raises SubmissionError for names that lead
    outside of the folder."""
    entries = [entry for entry in archive.infolist() if not entry.is_dir()]
    if len(entries) > MAX_FILES:
        raise SubmissionError(f"it has more than {MAX_FILES} files")
    names: Dict[str, None] = {}
    for entry in entries:
        name = checked_name(entry)
        if name in names:
            raise SubmissionError(f"{name} stands twice in the zip")
        names[name] = None
    folders = {str(above) for name in names for above in pathlib.PurePath(name).parents}
    if len(folders - {"."}) > MAX_FOLDERS:
        raise SubmissionError(f"it has more than {MAX_FOLDERS} folders")
    for name in folders.intersection(names):
        raise SubmissionError(f"{name} is a file and a folder in the zip")
    return list(names)


def checked_name(entry: zipfile.ZipInfo) -> str:
    """The name of an entry, which must lead to a place inside, and be packed in a way
    that is read piece by piece."""
    name = entry.filename
    parts = name.split("/")
    if len(parts) - 1 > MAX_DEPTH:
        raise SubmissionError(f"its folders are more than {MAX_DEPTH} deep")
    if any(part in ("", ".", "..") or not PART.fullmatch(part) for part in parts):
        raise SubmissionError(
            f"the zip has {name[:60]!r}, which is no name of a file inside"
        )
    if (
        max(map(len, map(str.encode, parts))) > MAX_NAME
        or len(name.encode()) > MAX_PATH
    ):
        raise SubmissionError(
            f"{name[:60]!r} is too long: a name has at most {MAX_NAME} bytes, and a path {MAX_PATH}"
        )
    if (entry.external_attr >> 16) & 0o170000 == 0o120000:
        raise SubmissionError(f"{name[:60]} is a link: hand in what it leads to")
    if entry.compress_type not in METHODS:
        raise SubmissionError(
            f"{name[:60]} is packed by another method than deflate: pack it anew by `zip`"
        )
    return name


def without_top(names: List[str]) -> Dict[str, str]:
    """Maps each name in a zip to the name of its file. A single top folder is dropped,
    since zips of a folder have one."""
    tops = {name.partition("/")[0] for name in names}
    if len(tops) == 1 and all("/" in name for name in names):
        return {name: name.partition("/")[2] for name in names}
    return {name: name for name in names}


def check_program(folder: pathlib.Path, name: str, command: str) -> None:
    """Refuses files that the hall cannot start as they are: they lack the file that the
    command names, or the client that this file imports. A hand-in that is refused costs
    no try."""
    path = folder / name
    if name not in command.split():
        return
    if not path.is_file():
        names = [path.name for path in sorted(folder.glob(f"*{path.suffix}"))]
        programs = [name for name in names if name != f"{CLIENT}.py"]
        advice = f": call {programs[0]} so" if programs else " at its top"
        raise SubmissionError(f"it has no {name}, which is started{advice}")
    lacks_client = not any(folder.glob(f"{CLIENT}*"))
    if lacks_client and CLIENT in names_in(path.read_bytes()):
        raise SubmissionError(
            f"{name} imports {CLIENT}, and {CLIENT}.py is not there: hand in a zip of both"
        )


def measure_folder(folder: pathlib.Path) -> UploadedFiles:
    """Returns size, number and digest of the files in a folder."""
    paths = sorted(
        (str(path.relative_to(folder)), path)
        for path in folder.rglob("*")
        if path.is_file()
    )
    digest = hashlib.sha256()
    size = 0
    for name, path in paths:
        length = path.stat().st_size
        size += length
        digest.update(f"{len(name.encode())}:{name}{length}:".encode())
        with path.open("rb") as file:
            hashlib.file_digest(file, lambda: digest)
    return UploadedFiles(size, len(paths), digest.hexdigest())
