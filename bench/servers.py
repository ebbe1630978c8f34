"""What the programs share that start a server: its words, and how many files may be
open."""
import pathlib
import resource
import signal
import sys

from examples.contest import arena
from tests.support.servers import Server

MAX_SESSIONS = 1024


def serving(
    folder: pathlib.Path, sessions: int, turns: int, pause: int, *options: object
) -> Server:
    """The arena serves the tournament of a folder, cup.toml."""
    options_given = [
        "serve",
        folder / "cup.toml",
        "--sessions",
        sessions,
        "--turns",
        turns,
        "--pause",
        pause,
        "--replay",
        folder / "match",
    ]
    return Server([*arena(), *options_given, *options], errors=folder / "errors")


def prepare(files: int) -> None:
    """Lets this program and those that it starts have this many files open. Has it
    clean up even if it is told to end."""
    soft, hard = resource.getrlimit(resource.RLIMIT_NOFILE)
    if hard != resource.RLIM_INFINITY and hard < files:
        raise SystemExit(
            f"the system lets a program open {hard} files, and {files} are needed"
        )
    if soft != resource.RLIM_INFINITY and soft < files:
        resource.setrlimit(resource.RLIMIT_NOFILE, (files, hard))
    signal.signal(signal.SIGTERM, lambda *_: sys.exit(1))
