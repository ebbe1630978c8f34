"""The lab: agents for the arena are played under schedules that the user chooses.
arena_lab/README.md says how to begin."""

import os
import pathlib
import sys

VERSION = "1"

# older ones lack modules of Python that every part of the lab reads files by
if sys.version_info < (3, 11):
    sys.exit(
        "arena-lab: this is Python %d.%d, and the lab needs 3.11 or newer: start it by such a Python"
        % sys.version_info[:2]
    )

# the command line that starts the lab: in a clone or an archive, and where it is
# installed
IN_CLONE = "./arena-lab"
INSTALLED_COMMAND = "arena-lab"


def command_name() -> str:
    """How one calls this lab: by the command that pip or Debian has installed, or else
    by the script of a clone."""
    return (
        INSTALLED_COMMAND
        if pathlib.PurePath(sys.argv[0]).name == INSTALLED_COMMAND
        else IN_CLONE
    )


def with_one_order() -> None:
    """Starts this process anew if Python draws in which order sets of texts are gone
    through: agents inside the lab would do other things from start to start. Workers
    and programs have the same order then."""
    if os.environ.get("PYTHONHASHSEED") != "0":
        os.environ["PYTHONHASHSEED"] = "0"
        os.execv(sys.executable, [sys.executable, *sys.orig_argv[1:]])
