"""Compiles searching.rs over the crates of the search as plain Rust (tools/port)."""
import pathlib

from tools.port import crates
from tools.port.compiler import Target, compile_target
from tools.port.native import port_files

HERE = pathlib.Path(__file__).resolve().parent
OUT = crates.TOP / "tests" / "out" / "port"
CRATES = ("bhs_explore", "bhs_wasm_read", "bhs_wasm_team")
TARGET = Target(HERE / "searching.rs", "searching", "bin", ("-Coverflow-checks=on",))


def is_current(executable: pathlib.Path) -> bool:
    """Returns whether an executable is newer than its sources."""
    sources = [TARGET.root, *port_files()]
    for crate in {name for top in CRATES for name in [*crates.below(top), top]}:
        sources += (crates.TOP / "crates" / crate / "src").rglob("*.rt")
    compile_time = executable.stat().st_mtime if executable.is_file() else 0.0
    return all(path.stat().st_mtime < compile_time for path in sources)


def program() -> pathlib.Path:
    """The program, which is compiled first if anything has changed."""
    executable = OUT / TARGET.name
    if not is_current(executable):
        compile_target(TARGET, OUT, CRATES)
    return executable
