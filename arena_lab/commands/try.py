"""Serves the page on which one writes an agent, on your own machine and for you alone.

    ./arena-lab try                serves it, and opens it in your browser
    ./arena-lab try --no-browser   says where it is

The page has exercises and kits, plays what you write, and shows the match beside the
lines that sent. The address that it prints has a secret, by which it knows you: keep it
to yourself, as whoever has it may run programs here. What you write stays in the
folder. It ends by Ctrl+C. It needs Debian's packages python3-django,
python3-djangorestframework, python3-waitress, python3-whitenoise and libjs-codemirror,
and bubblewrap and python3-seccomp for the sandboxes in which programs run.
"""
import argparse
import os
import pathlib
import shutil
import webbrowser

from arena_lab.commands import hall
from arena_lab.command_line.arguments import add_program, at_least_one
from arena_lab.hall import place
from arena_lab.hall.hall_files import HallError
from arena_lab.hall.place import HallFolder
from arena_lab.rules.engines import program_at
from arena_lab.sandbox import sandboxes
from arena_lab.support.missing import check

ADDRESS = "127.0.0.1"
COURSE = "try.toml"
# the page that leads a browser to the address: command lines, which other users of the
# machine see, do not have its secret
OPENS = "open.html"
LEADS = '<meta http-equiv="refresh" content="0; url={link}">\n'


def usual_folder() -> pathlib.Path:
    """Returns the folder for data of this user's programs."""
    data = os.environ.get("XDG_DATA_HOME") or pathlib.Path.home() / ".local" / "share"
    return pathlib.Path(data) / "arena-try"


def add_arguments(parser: argparse.ArgumentParser) -> None:
    """Adds the arguments of `try`."""
    parser.add_argument(
        "--port", metavar="N", type=at_least_one, default=8000, help="the port (8000)"
    )
    parser.add_argument(
        "--folder",
        metavar="FOLDER",
        type=pathlib.Path,
        default=usual_folder(),
        help=f"where what you write is kept ({usual_folder()})",
    )
    parser.add_argument(
        "--no-browser", action="store_true", help="open nothing, and say where it is"
    )
    parser.add_argument(
        hall.WEAK_SANDBOX,
        action="store_true",
        help="begin although this machine makes no sandbox: programs that are tried can "
        "then read and change all your files",
    )
    parser.add_argument(
        "--seconds", metavar="N", type=float, help="end after this number of seconds"
    )
    add_program(parser)


def check_sandbox(is_weak_allowed: bool) -> None:
    """Refuses to try programs as the user, unless the user says so."""
    if sandboxes.weakness() and not is_weak_allowed:
        raise HallError(
            f"{sandboxes.weakness()}. Or say {hall.WEAK_SANDBOX}: programs that are tried can then read and change "
            "all your files, also one that somebody else gave you"
        )


def run(args: argparse.Namespace) -> int:
    check(*hall.PACKAGES)
    check_sandbox(args.allow_weak_sandbox)
    folder = args.folder.resolve()
    folder.mkdir(mode=0o700, parents=True, exist_ok=True)
    course = folder / COURSE
    shutil.copy(pathlib.Path(place.__file__).parent / COURSE, course)
    args.address = ADDRESS
    args.workers = 1
    of = HallFolder(folder / "hall", course, program_at(args.program, args.needs))

    def announce() -> None:
        """Prints the address, and opens it."""
        link = f"http://{ADDRESS}:{args.port}/mine/{of.secret(place.OWNER)}"
        print(f"try {link} (Ctrl+C ends it; {folder} has what you write)", flush=True)
        if not args.no_browser:
            place.write_whole(of.folder / OPENS, LEADS.format(link=link))
            webbrowser.open((of.folder / OPENS).as_uri())

    return hall.serve(args, of, lambda *_: None, announce)
