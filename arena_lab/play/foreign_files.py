"""Notes what programs inside the lab reach outside of them, such as files that they
write, the environment, threads and other programs; whether they read chance, a clock or
the number of their process; and which files they read. An audit hook of Python's
reports most of this, and functions of the library are wrapped for the rest.
"""
import contextlib
import functools
import importlib.util
import os
import pathlib
import random
import resource
import sys
import sysconfig
import time
import uuid
from importlib.machinery import PathFinder
from types import ModuleType
from typing import Any, Callable, Dict, Iterator, List, Optional, Set, Tuple

from arena_lab.play.imports import PACKAGE, digest_named, relative_name, package_digest
from arena_lab.support.built import LAB
from arena_lab.support.missing import require

REACHES = {
    "os.putenv": "sets a variable of the environment",
    "os.unsetenv": "sets a variable of the environment",
    "os.remove": "removes a file",
    "os.rename": "renames a file",
    "os.mkdir": "makes a folder",
    "os.rmdir": "removes a folder",
    "os.chdir": "changes its folder",
    "os.truncate": "changes a file",
    "os.link": "links a file",
    "os.symlink": "links a file",
    "os.chmod": "changes a file",
    "os.utime": "changes a file",
    "os.chown": "changes a file",
    "os.setxattr": "changes a file",
    "_thread.start_new_thread": "starts a thread",
    "subprocess.Popen": "starts a program",
    "os.system": "starts a program",
    "os.fork": "starts a program",
    "os.posix_spawn": "starts a program",
    "os.kill": "sends a signal",
    "sqlite3.connect": "opens a database",
    "socket.__new__": "opens a socket",
    "ctypes.dlopen": "loads a library",
    "mmap.__new__": "maps a file",
}
# functions of the library that give something else another time
CLOCKS = [
    f"{name}{unit}"
    for name in (
        "time",
        "monotonic",
        "perf_counter",
        "process_time",
        "thread_time",
        "clock_gettime",
    )
    for unit in ("", "_ns")
]
CHANCE = "draw by chance"
CLOCK = "read a clock"
PROCESS = "know their process"
IDENTITY = "know where objects lie"
READS: Dict[str, List[Tuple[ModuleType, str]]] = {
    CHANCE: [(os, "urandom"), (os, "getrandom"), (random, "_urandom")],
    PROCESS: [
        (os, name) for name in ("getpid", "getppid", "getpgrp", "getpgid", "getsid")
    ],
    CLOCK: [
        (uuid, "uuid1"),
        (os, "times"),
        (resource, "getrusage"),
        *(
            (time, name)
            for name in [*CLOCKS, "localtime", "gmtime", "ctime", "asctime", "strftime"]
        ),
    ],
}
WRITES = os.O_WRONLY | os.O_RDWR | os.O_CREAT | os.O_APPEND | os.O_TRUNC
# folders whose files are no part of an agent: those of Python, of the lab, and of Linux
PYTHONS = ("stdlib", "platstdlib", "purelib", "platlib")
NOT_READ = tuple(
    f"{folder}{os.sep}"
    for folder in (
        *map(sysconfig.get_path, PYTHONS),
        LAB,
        "/usr/lib/python3",
        "/proc",
        "/sys",
        "/dev",
    )
)
IS_WATCHED: List[bool] = []


class Notes:
    """What a program has accessed besides replies: `reaches` names the first effect
    outside of the lab (or None); `reads` has files, modules, and sources of
    nondeterminism such as clocks."""

    def __init__(self) -> None:
        self.reaches: Optional[str] = None
        self.reads: Set[str] = set()
        self.files: Set[str] = set()
        self.modules: Set[str] = set()


def notes_of(thread: Any) -> Notes:
    """Returns the notes of a program's greenlet, and creates them if needed."""
    notes: Optional[Notes] = vars(thread).get("notes")
    if notes is None:
        notes = vars(thread)["notes"] = Notes()
    return notes


# notes of the files that are being loaded for inspection
LOADING: List[Notes] = []
LOADED_NOTES = Notes()


@contextlib.contextmanager
def loading() -> Iterator[None]:
    """Notes what agents' files reach and read while they are loaded for the first
    time."""
    LOADING.append(LOADED_NOTES)
    try:
        yield
    finally:
        LOADING.pop()


def watch() -> None:
    """Begins to note it, once for this process."""
    if IS_WATCHED:
        return
    IS_WATCHED.append(True)
    for what, places in READS.items():
        for module, name in places:
            setattr(module, name, reading(getattr(module, name), what))
    current = require("greenlet").getcurrent
    events = frozenset(("open", "import", "builtins.id", *REACHES))

    def note(event: str, details: Any) -> None:
        if event not in events:
            # most events are of no interest, and each costs this much
            return
        thread = current()
        if thread.parent is not None:
            note_of(notes_of(thread), event, details)
        elif LOADING:
            note_of(LOADING[-1], event, details)

    sys.addaudithook(note)


def note_read(what: str) -> None:
    """Notes that the running program reads this, which differs from one time to the
    next."""
    if not IS_WATCHED:
        return
    thread = require("greenlet").getcurrent()
    if thread.parent is not None:
        notes_of(thread).reads.add(what)
    elif LOADING:
        LOADING[-1].reads.add(what)


def reading(function: Callable[..., Any], what: str) -> Callable[..., Any]:
    """A function of the library that notes who calls it."""

    @functools.wraps(function)
    def read_noted(*args: Any, **extra: Any) -> Any:
        note_read(what)
        return function(*args, **extra)

    return read_noted


def note_of(notes: Notes, event: str, details: Any) -> None:
    """Notes one thing."""
    if event == "import":
        notes.modules.add(details[0].partition(".")[0])
    elif event == "builtins.id":
        # the library asks for identities where it comes to nothing
        if not sys._getframe(2).f_code.co_filename.startswith(NOT_READ):
            notes.reads.add(IDENTITY)
    elif event != "open":
        notes.reaches = notes.reaches or f"what lies outside, since it {REACHES[event]}"
    elif isinstance(details[0], (str, bytes)):
        path, _, flags = details
        if not (isinstance(flags, int) and flags & WRITES):
            notes.files.add(os.fsdecode(path))
        elif "__pycache__" not in os.fsdecode(path):
            notes.reaches = notes.reaches or "what lies outside, since it writes a file"


def read_by(of_program: Notes) -> Dict[str, str]:
    """The SHA-256 of each file that a program with these notes has read, also while its
    file was loaded first, and of each installed package, by their names."""
    paths: Set[str] = set()
    for notes in (of_program, LOADED_NOTES) if IS_WATCHED else ():
        files = (source_of(os.path.abspath(file)) for file in notes.files)
        paths.update(
            relative_name(pathlib.Path(file))
            for file in files
            if not file.startswith(NOT_READ) and os.path.isfile(file)
        )
        paths.update(f"{PACKAGE}{name}" for name in notes.modules if is_installed(name))
    return {name: digest_named(name) for name in sorted(paths)}


def is_installed(name: str) -> bool:
    """Returns whether a module belongs to an installed package. A module beside an
    agent counts as a file that the agent read."""
    spec = PathFinder.find_spec(name) if package_digest(name) else None
    return spec is not None and any(
        location.startswith(NOT_READ)
        for location in (spec.origin or "", *(spec.submodule_search_locations or ()))
    )


def source_of(file: str) -> str:
    """The file that a compiled one was made of, or the file itself."""
    try:
        return importlib.util.source_from_cache(file)
    except ValueError:
        return file
