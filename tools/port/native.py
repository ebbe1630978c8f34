"""Compiles the program by rustc, without a proof, if its sources have changed, and prints
where it is.

    python3 -m tools.port.native [bhs_player]

It is the same source text as that of the proved program, without contracts, and with the
rules of tools/port/rules.py. It is what `./arena` plays where the proved program is not
built (tools/compiled.py), and says at each start what it is. It stands as out/port/arena,
or as out/port/player/bhs_player, which plays modules.
"""
import os
import pathlib
import subprocess
import sys
import time
from typing import Iterator

from arena_lab.support.built import ARENA, PORT_LINE, Binary, is_unproved
from tools.port import compiler, crates
from tools.port.compiler import CompilationError, Target, compile_target
from tools.port.sources import is_plain
from tools.prove import kept, record
from tools.prove.bar import Bar, minutes

OUT = crates.TOP / "out" / "port"
TARGET = Target(
    crates.HERE / "hosts" / "program.rs",
    "program",
    "bin",
    ("-Coverflow-checks=on", "-Cstrip=symbols"),
)
# inputs of the compilation besides the crates and the port: their list, and the file
# with the line that the program says
DATA_FILES = (
    crates.TOP / "crates.txt",
    crates.TOP / "arena_lab" / "support" / "built.py",
)


def port_files() -> Iterator[pathlib.Path]:
    """The files of the port itself."""
    for path in sorted(crates.HERE.rglob("*")):
        if path.suffix in (".py", ".rs"):
            yield path


def sources(crate: str) -> str:
    """The lines of a record for the files on which the program of a crate depends."""
    names = (name for name in [*crates.below(crate), crate] if not is_plain(name))
    code = "".join(record.sources(crates.TOP, name, ["src"]) for name in names)
    return record.digests(crates.TOP, [*DATA_FILES, *port_files()]) + code


def compile_into(path: pathlib.Path, binary: Binary, bar: Bar) -> None:
    """Compiles a program to a path."""
    start = time.monotonic()

    def show(number: int, count: int) -> None:
        past = minutes(time.monotonic() - start)
        crate_count = f"{number} of {count} crates"
        bar.show(number / count, f"compiling by rustc, {past}, {crate_count}")

    os.environ["ARENA_SAID"] = PORT_LINE
    folder = path.parent / "crates"
    compile_target(TARGET, folder, (binary.crate,), say=show)
    bar.clear()
    (folder / TARGET.name).replace(path)
    if not is_unproved(path):
        raise CompilationError("rustc compiled a program that says nothing of itself")


def toolchain() -> str:
    """Returns the name and version of rustc."""
    words = [str(compiler.rustc_path()), "--version"]
    return subprocess.run(words, capture_output=True, text=True).stdout.strip()


def compiled_program(binary: Binary = ARENA) -> pathlib.Path:
    """The program that rustc compiles, which is compiled first if it is missing or its
    sources have changed."""
    recipe = kept.Recipe(
        name=binary.name,
        stamp=binary.port_stamp_path,
        manner="by rustc, without a proof",
        first_reason="no proved one is built here",
        advice="a release has the proved program",
        toolchain=toolchain,
        sources=lambda: sources(binary.crate),
        compile=lambda path, bar: compile_into(path, binary, bar),
    )
    return kept.kept_program(recipe, Bar())


if __name__ == "__main__":
    sys.exit(kept.main(sys.argv[1:], compiled_program, __doc__))
