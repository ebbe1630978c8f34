"""The crates and libraries of the port, lowest first, and what each stands on."""
import functools
import pathlib
from typing import Dict, List

from arena_lab.support.built import TOOLCHAIN

TOP = pathlib.Path(__file__).resolve().parents[2]
HERE = pathlib.Path(__file__).resolve().parent
# libraries of the toolchain as plain Rust, which the source archive of a release has and no clone
# (tools/port/libraries.py)
VENDOR = HERE / "vendor"
STD = "rattle"
# libraries of the toolchain that the program stands on; a few lines of tools/port/libraries stand for the last four
LIBRARIES: Dict[str, List[str]] = {
    "itoa": [],
    "dec2flt": [],
    "fast_float": ["dec2flt"],
    "ryu": ["fast_float", "dec2flt", "itoa"],
    "hex": [],
    "sha2": [],
    "rand_core": [],
    "rand_chacha": ["rand_core"],
    "json": ["itoa", "ryu", "fast_float", "memchr"],
    "strsim": [],
    "toml_datetime": [],
    "toml_parser": ["toml_datetime", "fast_float"],
    "toml": ["toml_datetime", "toml_parser"],
    "clap": ["strsim"],
    "memchr": [],
    "serde_json": ["json", "fast_float"],
    "indexmap": [],
    "libc": [],
}
OWN = ("memchr", "serde_json", "indexmap", "libc")
# what does the words of the command line; the program is a few lines above it
PROGRAM = "bhs_cli_run"
# these say what is proved, and do nothing
THEOREMS = {"bhs_theorems_isolation"}
# these serve contests, which a page cannot
SERVING = {"bhs_shared_match", "bhs_server", "bhs_contest", "bhs_cli_serve"}


def crate_rows() -> Dict[str, List[str]]:
    """What each crate of crates.txt stands on."""
    lines = (TOP / "crates.txt").read_text(encoding="utf-8").splitlines()
    rows = [line.partition(":") for line in lines if line and not line.startswith("#")]
    return {name.split()[0]: right.split() for name, _, right in rows}


@functools.lru_cache(maxsize=None)
def dependencies(has_sockets: bool = True) -> Dict[str, List[str]]:
    """What each crate and library of the port stands on directly. The std is below all."""
    absent = THEOREMS if has_sockets else THEOREMS | SERVING
    every = {**LIBRARIES, **crate_rows()}
    return {
        name: [
            STD,
            *(crate for crate in below if crate in every and crate not in absent),
        ]
        for name, below in every.items()
        if name not in absent
    }


def below(name: str, has_sockets: bool = True) -> List[str]:
    """All that a crate stands on, lowest first."""
    names: Dict[str, None] = {}
    for crate in dependencies(has_sockets).get(name, []):
        names.update(dict.fromkeys([*below(crate, has_sockets), crate]))
    return list(names)


def is_library(name: str) -> bool:
    """Whether the port compiles the toolchain's source of a library."""
    return name in LIBRARIES and name not in OWN


def is_vendored() -> bool:
    """Whether rustc compiles the libraries of a source archive: those of the toolchain come first."""
    return VENDOR.is_dir() and not kit_folder("toml").is_dir()


def kit_folder(name: str) -> pathlib.Path:
    """Returns the folder of a library in the installed toolchain."""
    kit = TOOLCHAIN / "rattle"
    return kit / "core" if name == "dec2flt" else kit / name


def kit_source(name: str) -> pathlib.Path:
    """Returns the folder of a library's source in the installed toolchain."""
    source = kit_folder(name) / "src"
    return source / name if name == "dec2flt" else source
