"""Keeps a program that was compiled without a proof: it is compiled again only if its
sources have changed, by one of several starts at a time, and stands whole in its place.
"""
import contextlib
import fcntl
import pathlib
import shutil
import signal
import sys
import tempfile
import time
from typing import Callable, Iterator, List, NamedTuple, Optional

from arena_lab.support.built import ARENA, PLAYER, Binary, ProgramError
from tools.prove import record, version
from tools.prove.bar import Bar, minutes
from tools.prove.prover import TOP, is_current


class Recipe(NamedTuple):
    """A program, its compiler, and texts of messages."""

    name: str
    # where the digests of the sources are written; the program stands beside them
    stamp: pathlib.Path
    # what follows `compiling the program` and `compiled`
    manner: str
    # the reason of the first compilation
    first_reason: str
    advice: str
    # what compiled it, as `--version` names it
    toolchain: Callable[[], str]
    # the lines of a record for its sources
    sources: Callable[[], str]
    # compiles it to a path
    compile: Callable[[pathlib.Path, Bar], None]


@contextlib.contextmanager
def alone(folder: pathlib.Path, bar: Bar) -> Iterator[None]:
    """Waits until nobody else compiles there."""
    with open(folder / "lock", "w") as lock:
        try:
            fcntl.flock(lock, fcntl.LOCK_EX | fcntl.LOCK_NB)
        except OSError:
            bar.say("another start compiles the program: waiting for it")
            fcntl.flock(lock, fcntl.LOCK_EX)
        yield


def kept_program(recipe: Recipe, bar: Bar) -> pathlib.Path:
    """The program of a recipe, which is compiled first if it is missing or its sources
    have changed."""
    folder = recipe.stamp.parent
    program = folder / recipe.name
    if is_current(recipe.stamp):
        return program
    folder.mkdir(parents=True, exist_ok=True)
    with alone(folder, bar):
        if not is_current(recipe.stamp):
            why = (
                "its sources have changed" if program.exists() else recipe.first_reason
            )
            bar.say(f"compiling the program {recipe.manner} ({why}); {recipe.advice}")
            compile_anew(recipe, program, bar)
    return program


def compile_anew(recipe: Recipe, program: pathlib.Path, bar: Bar) -> None:
    """Compiles the program of a recipe, and records of what."""
    start = time.monotonic()
    head = record.lines_of(version.lines(False, f"toolchain {recipe.toolchain()}"))
    sources = recipe.sources()
    # what an earlier start has left when it was killed
    for path in program.parent.glob("new-*"):
        shutil.rmtree(path)
    with tempfile.TemporaryDirectory(prefix="new-", dir=program.parent) as name:
        new_program = pathlib.Path(name) / recipe.name
        recipe.compile(new_program, bar)
        new_program.replace(program)
    record.write(recipe.stamp, head + record.digests(TOP, [program]) + sources)
    bar.say(f"compiled {recipe.manner} in {minutes(time.monotonic() - start)}")


def binary_of(words: List[str]) -> Optional[Binary]:
    """Returns the program that the words of a command name by its crate."""
    names = {binary.crate: binary for binary in (ARENA, PLAYER)}
    return names.get(words[0] if words else ARENA.crate) if len(words) < 2 else None


def main(
    words: List[str],
    compiled_program: Callable[[Binary], pathlib.Path],
    help_text: str,
    advice: str = "",
) -> int:
    """Prints where a program is, which is compiled first; of a fault a line."""
    binary = binary_of(words)
    if binary is None:
        print(help_text.strip())
        return 0 if words in (["-h"], ["--help"]) else 2
    # whoever ends it ends the compiler too
    signal.signal(signal.SIGTERM, lambda number, _: sys.exit(128 + number))
    try:
        print(compiled_program(binary))
    except (ProgramError, OSError) as fault:
        print(f"arena: {fault}{advice}", file=sys.stderr)
        return 1
    except KeyboardInterrupt:
        print("\narena: interrupted", file=sys.stderr)
        return 130
    return 0
