"""Compiles the program without a proof, by rustc or by the Rattle toolchain, and prints
its path.

    python3 -m tools.compiled [bhs_player]

`./arena` and the lab do so where no program of the current sources is built. rustc is
taken if it is installed, since its program comes sooner and is faster (tools/port/
native.py), and else the Rattle toolchain (tools/prove/unproved.py). Which of the two it
was, the program says at each start.
"""
import pathlib
import sys

from arena_lab.support.built import Binary, ProgramError
from tools.port import compiler, native
from tools.prove import kept, unproved

HOW_TO_INSTALL = (
    "no program is built here, and nothing compiles one: {fault}. A release has the proved"
    " program and needs no compiler"
)


def compiled_program(binary: Binary) -> pathlib.Path:
    """The program without a proof, which is compiled first if it is missing or its
    sources have changed."""
    fault = compiler.missing()
    if not fault:
        return native.compiled_program(binary)
    if unproved.can_compile():
        return unproved.compiled_program(binary)
    raise ProgramError(HOW_TO_INSTALL.format(fault=fault))


if __name__ == "__main__":
    advice = f"\narena: {unproved.INSTEAD}"
    sys.exit(kept.main(sys.argv[1:], compiled_program, __doc__, advice))
