"""Files of matches that are over are kept compressed, and read as they were."""
import gzip
import pathlib
import shutil
import stat
from typing import IO, Any, cast

SUFFIX = ".gz"
# bytes of a disk that are given to files at once
BLOCK = 4_096
# bytes of a file that is worth it
MIN_BYTES = 4_096


def on_disk(size: int) -> int:
    """Returns how many bytes of a disk a file of this size takes, with its inode."""
    return (-(-size // BLOCK) + 1) * BLOCK


def most_on_disk(size: int, files: int) -> int:
    """Returns how many bytes of a disk so many files take at most that have this size
    together: each has a block that is not full, and an inode."""
    return size + 2 * BLOCK * files


def size_of(folder: pathlib.Path) -> int:
    """The bytes of a disk that all files and folders of a folder take."""
    paths = (path.lstat() for path in folder.rglob("*"))
    return sum(
        on_disk(status.st_size if stat.S_ISREG(status.st_mode) else 0)
        for status in paths
    )


def pack(folder: pathlib.Path) -> int:
    """Compresses the files of a folder, to which nobody writes any more; gives the
    bytes of all of them then. Whatever ends it, each file is there."""
    for path in list(folder.rglob("*")):
        is_packed = path.suffix == SUFFIX or path.is_symlink() or not path.is_file()
        if not is_packed and path.stat().st_size > MIN_BYTES:
            with path.open("rb") as plain, gzip.open(
                f"{path}{SUFFIX}", "wb"
            ) as gzip_file:
                shutil.copyfileobj(plain, gzip_file)
            path.unlink()
    return size_of(folder)


def packed_path(path: pathlib.Path) -> pathlib.Path:
    """Returns the path of a file, or of its compressed version."""
    return path if path.is_file() else path.with_name(path.name + SUFFIX)


def open_packed(path: pathlib.Path) -> IO[Any]:
    """Opens a file, decompressed if needed, for reading bytes."""
    packed = packed_path(path)
    if packed == path:
        return path.open("rb")
    return cast(IO[Any], gzip.open(packed))
