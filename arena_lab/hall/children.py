"""Commands of the lab that a worker starts, in which programs of strangers play: they end
with the worker, and leave nothing."""
import contextlib
import os
import pathlib
import subprocess
import tempfile
from typing import Dict, Iterator, Sequence

from django.conf import settings

from arena_lab.hall.attempts.servers import bound
from arena_lab.hall.place import temporary_of
from arena_lab.sandbox import sandboxes
from arena_lab.support.built import TOP

LOG = "log.txt"
# if memory is short, such a command ends before the hall's own processes
FIRST = ("choom", "-n", "1000", "--")


@contextlib.contextmanager
def child_of(
    words: Sequence[str], folder: pathlib.Path
) -> Iterator["subprocess.Popen[bytes]"]:
    """A command in a folder, in which it writes its log, as long as it is open."""
    with temporary_folder() as temporary, (folder / LOG).open("wb") as log:
        child = subprocess.Popen(
            bound([*FIRST, *words]),
            cwd=folder,
            stdin=subprocess.DEVNULL,
            stdout=log,
            stderr=log,
            env={**variables(), "TMPDIR": temporary},
        )
        try:
            yield child
        finally:
            child.kill()
            child.wait()


def variables() -> Dict[str, str]:
    """The environment of such a command: nothing of the hall's own."""
    return {
        "PATH": os.environ.get("PATH", "/usr/bin:/bin"),
        "PYTHONPATH": str(TOP),
        "PYTHONHASHSEED": "0",
    }


@contextlib.contextmanager
def temporary_folder() -> Iterator[str]:
    """A folder for temporary files. If the worker is killed, the hall
    removes the folder at its next start (place.remove_left)."""
    temporary = tempfile.mkdtemp(prefix=temporary_of(settings.PLACE.folder))
    # programs have users of their own where there are no walls
    os.chmod(temporary, 0o711)
    try:
        yield temporary
    finally:
        sandboxes.remove(pathlib.Path(temporary))


def last_line(path: pathlib.Path) -> str:
    """The last line of a log."""
    lines = path.read_text(encoding="utf-8", errors="replace").splitlines()
    return lines[-1][:200] if lines else ""
