"""Says where the examples stand that were installed with this lab, or copies them.

    ./arena-lab examples
    ./arena-lab examples FOLDER

They are the sample agents and the kits, a tournament for practice, the lessons, a
course that is graded, the experiments, and the documents. FOLDER gets a copy of all
that is yours to change, and a link to the lab, by which the copies run.
"""
import argparse
import pathlib
import shutil
from typing import Optional

from arena_lab.play.agent_files import AGENTS
from arena_lab.support.built import LAB, TOP
from arena_lab.support.faults import ArenaError

# folders that are copied, and the folder of Debian's package for documents
COPIED_FOLDERS = ("examples", "experiments", "docs")
DOCUMENTS = pathlib.Path("/usr/share/doc/arena")


def add_arguments(parser: argparse.ArgumentParser) -> None:
    """Adds the arguments of `examples`."""
    parser.add_argument(
        "folder",
        metavar="FOLDER",
        nargs="?",
        type=pathlib.Path,
        help="copy them to this folder, which is not there yet",
    )


def run(args: argparse.Namespace) -> int:
    if args.folder is None:
        print(AGENTS.parent)
        return 0
    if args.folder.exists():
        raise ArenaError(
            f"{args.folder}: there is something already; name a new folder"
        )
    for name in COPIED_FOLDERS:
        source = place_of(name)
        if source is not None:
            shutil.copytree(
                source,
                args.folder / name,
                ignore=shutil.ignore_patterns("__pycache__", "out"),
            )
    (args.folder / LAB.name).symlink_to(LAB)
    print(args.folder)
    return 0


def place_of(name: str) -> Optional[pathlib.Path]:
    """Returns the path of a folder in a clone, in a Debian package or in a wheel; None
    if it is missing."""
    return next(
        (
            folder / name
            for folder in (AGENTS.parents[1], TOP, LAB, DOCUMENTS)
            if (folder / name).is_dir()
        ),
        None,
    )
