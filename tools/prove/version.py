#!/usr/bin/env python3
"""Says which arena this is: its version, the commit, whether the tree was clean, the
toolchain, and whether the program that ./arena runs is proved.

    ./arena --version

In a clone, `proved` means that tools/build or the gate has recorded the SHA-256 of the
program and of the sources as they stand in the tree. A release says what it was made of
(its file BUILD).
"""
import pathlib
import re
import subprocess
import sys
from typing import Optional

TOP = pathlib.Path(__file__).resolve().parents[2]
sys.path.insert(0, str(TOP))

from arena_lab.support import built  # noqa: E402

KIT = built.TOOLCHAIN
# what a release says of itself
BUILD = "BUILD"
UNKNOWN = "not known"
HOW_TO_PROVE = (
    "no proved program of these sources is built: tools/build proves and builds it"
)


def version() -> str:
    """The version of the project."""
    return (TOP / "VERSION").read_text().strip()


def asked_of_git(*words: str) -> Optional[str]:
    """Returns the output of git for this tree, or None outside of a repository."""
    try:
        result = subprocess.run(
            ["git", "-C", str(TOP), *words],
            stdout=subprocess.PIPE,
            stderr=subprocess.DEVNULL,
        )
    except FileNotFoundError:
        return None
    return (
        result.stdout.decode(errors="replace").strip()
        if result.returncode == 0
        else None
    )


def commit() -> str:
    """Returns this tree's commit, marked if files have changed."""
    head = asked_of_git("rev-parse", "HEAD")
    changes = asked_of_git("status", "--porcelain")
    if head is None or changes is None:
        return f"commit {UNKNOWN}: this is no git repository"
    return f"commit {head}, {'tree changed' if changes else 'tree clean'}"


def installed_toolchain() -> str:
    """The toolchain that is installed."""
    kit = KIT / "KIT-ID"
    return kit.read_text().strip() if kit.exists() else UNKNOWN


def installed_version() -> str:
    """A line for the toolchain that is installed."""
    return f"toolchain {installed_toolchain()}"


def recorded_version(record: Optional[pathlib.Path] = None) -> str:
    """A line for the toolchain that built a program, by default the proved one, as its
    record says."""
    path = record or built.ARENA.proved_path.with_name(built.RECORD)
    match = re.search(
        r"^# (toolchain .*)$", path.read_text() if path.exists() else "", re.M
    )
    return match[1] if match else f"toolchain {UNKNOWN}"


def lines(is_proved: bool, toolchain: str) -> str:
    """What is said of a program that this toolchain has built of this tree."""
    return f"arena {version()}, {'proved' if is_proved else 'unproved'}\n{commit()}\n{toolchain}\n"


def text() -> str:
    """What is said of the program that ./arena runs."""
    if (TOP / BUILD).exists():
        return (TOP / BUILD).read_text()
    if built.ARENA.is_proved():
        return lines(True, recorded_version())
    stamp = built.ARENA.current_stamp()
    toolchain = recorded_version(stamp) if stamp else installed_version()
    return lines(False, toolchain) + f"{HOW_TO_PROVE}\n"


def main() -> int:
    if sys.argv[1:] in (["-h"], ["--help"]):
        print(__doc__.strip())
    else:
        print(text(), end="")
    return 0


if __name__ == "__main__":
    sys.exit(main())
