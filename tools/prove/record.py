"""Records of what was built, by the SHA-256 of each file, in the form that sha256sum
checks.

The record of a program names the program and the sources of all its crates, behind
three lines that say which arena it is. A proved program has it beside it as
proved.sha256. So has each crate that was proved: there it names the library, the
sources, and the records of the crates that it stands on. `tools/prove/is_current
RECORD` says whether all of that is as it was.
"""
import contextlib
import hashlib
import os
import pathlib
from typing import Iterable, List, Sequence

from arena_lab.support.built import ARENA, PLAYER
from tools.prove import version
from tools.prove.prover import PARTS, Libraries, below, record_of

# the crates of the programs: `arena`, and what plays modules
PROGRAMS = (ARENA.crate, PLAYER.crate)
# what a program depends on beside its crates
LISTS = ("crates.txt", "HANDLES")
# begins the lines of a crate's sources: behind it stand the folders, of which a record
# names each file
ALL_OF = "# all of "


def digests(top: pathlib.Path, paths: Iterable[pathlib.Path]) -> str:
    """A line for each file, with its path from the top."""
    return "".join(
        f"{hashlib.sha256(path.read_bytes()).hexdigest()}  {os.path.relpath(path, top)}\n"
        for path in paths
    )


def sources(top: pathlib.Path, name: str, parts: Iterable[str] = PARTS) -> str:
    """The lines of a crate's sources, contracts and proofs."""
    folders = [top / "crates" / name / part for part in parts]
    files = digests(
        top,
        sorted(
            path for folder in folders for path in folder.rglob("*") if path.is_file()
        ),
    )
    return f"{ALL_OF}{' '.join(os.path.relpath(folder, top) for folder in folders)}\n{files}"


def lines_of(text: str) -> str:
    """The lines that begin a record, of a text that says which arena it is of."""
    return "".join(f"# {line}\n" for line in text.splitlines())


def write(record: pathlib.Path, text: str) -> None:
    """Writes a record, which is whole whenever it stands there."""
    new = record.with_name(f"{record.name}.new")
    new.write_text(text)
    new.replace(record)


def record_crate(
    top: pathlib.Path, libraries: Libraries, name: str, proof_lines: str
) -> None:
    """Records that a crate was proved, of sources with these lines, and built, once
    those below it are recorded."""
    record = record_of(top / "crates", name)
    records = [record_of(top / "crates", crate) for crate in below(libraries, name)]
    if name in PROGRAMS:
        record_program(
            top,
            name,
            "".join(
                ALL_OF + record.read_text().partition(ALL_OF)[2] for record in records
            )
            + proof_lines,
        )
        return
    library = record.parent / "rlib" / f"{name}.rlib"
    # for a library folder, this file contains the checksums of the others
    write(
        record,
        digests(top, [library / "format" if library.is_dir() else library, *records])
        + proof_lines,
    )


def record_program(top: pathlib.Path, name: str, proof_lines: str) -> None:
    """Records that a program was built of crates that were proved, of sources with
    these lines."""
    record = record_of(top / "crates", name)
    built = digests(top, [record.with_name(name), *(top / path for path in LISTS)])
    head = lines_of(version.lines(True, version.installed_version()))
    write(record, head + built + proof_lines)


def programs_in(libraries: Libraries) -> List[str]:
    """The crates of the programs, of a repository with these crates."""
    return [name for name in PROGRAMS if name in libraries]


def below_programs(libraries: Libraries, programs: Iterable[str]) -> List[str]:
    """The crates that these programs stand on, lowest first."""
    return list(
        dict.fromkeys(crate for name in programs for crate in below(libraries, name))
    )


def record_all(
    top: pathlib.Path, libraries: Libraries, programs: Sequence[str]
) -> None:
    """Records that these programs and their crates, which stand there as they were
    proved, are proved and built."""
    for name in programs:
        record_program(
            top,
            name,
            "".join(sources(top, crate) for crate in [*below(libraries, name), name]),
        )
    for name in below_programs(libraries, programs):
        # without its library a crate has no record, and tools/build proves it again
        with contextlib.suppress(FileNotFoundError):
            record_crate(top, libraries, name, sources(top, name))
