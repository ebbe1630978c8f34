"""The toolchain's libraries of the program, as plain Rust: the source archive of a release
has them, so that rustc compiles the program where the toolchain is not installed.

They are the files of the installed toolchain without contracts, with the rules of
tools/port/rules.py and with their licences.
"""
from typing import Dict, Iterator, Tuple

from tools.port import crates, sources


def files_of(name: str) -> Dict[str, str]:
    """Returns the texts of a library by their names: plain Rust, and its licences."""
    folder = crates.kit_folder(name)
    # where a library has two licences, one suffices
    licences = sorted({*folder.glob("LICENSE*")} - {folder / "LICENSE-APACHE"})
    return {
        **dict(sources.plain_files(name, crates.kit_source(name))),
        **{path.name: path.read_text(encoding="utf-8") for path in licences},
    }


def vendored_files() -> Iterator[Tuple[str, str]]:
    """Yields the paths of all libraries' files in a source archive, with their texts."""
    for name in filter(crates.is_library, crates.LIBRARIES):
        for file, text in files_of(name).items():
            path = crates.VENDOR.relative_to(crates.TOP) / name / file
            yield str(path), text
