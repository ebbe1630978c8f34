"""What pip and Debian install as commands: `arena` starts the program, `arena-lab` the
lab."""
import os
import sys

from arena_lab import with_one_order
from arena_lab.support import built


def arena() -> int:
    """Becomes the program that was installed with the lab; `--version` says what it was
    built of, and so does the first line of a contest's log."""
    program = built.ARENA.in_release()
    if program is None:
        print(
            "arena: no program was installed with this lab: take a release whose name has your machine",
            file=sys.stderr,
        )
        return 1
    build = program.with_name("BUILD")
    if sys.argv[1:] == ["--version"] and build.is_file():
        print(build.read_text(encoding="utf-8"), end="")
        return 0
    if sys.argv[1:2] == ["serve"] and "--help" not in sys.argv and build.is_file():
        build_text = "; ".join(build.read_text(encoding="utf-8").splitlines()[:3])
        print(build_text.replace("arena ", "arena: ", 1), file=sys.stderr, flush=True)
    os.execv(program, ["arena", *sys.argv[1:]])


def lab() -> int:
    """Runs the lab."""
    with_one_order()
    from arena_lab.__main__ import main

    return main()
