"""Compiles the program to a WebAssembly module without a proof, for the page on which one
plays (tools/play).

    python3 -m tools.port.module

It is the same source text as that of the proved program, without contracts, and with the
rules of tools/port/rules.py. Debian's rustc with libstd-rust-dev-wasm32 and lld compiles
it over the libraries of the toolchain, and binaryen's wasm-opt makes it smaller, and lets
a read wait for the page. The module is out/port/arena.wasm, and is kept as long as its
sources and the compilers stay the same.
"""
import hashlib
import pathlib
import shutil
import subprocess
import sys
import tempfile
import time
from typing import List, Optional

from arena_lab.support.built import has_port_libraries
from tools.port import crates
from tools.port.compiler import (
    CompilationError,
    Target,
    compile_target,
    rustc_path,
)
from tools.port.native import OUT
from tools.port.sources import texts_of
from tools.prove.bar import Bar, minutes

WASM = "wasm32-unknown-unknown"
TARGET = Target(
    crates.HERE / "hosts" / "module.rs",
    "module",
    "cdylib",
    (f"--target={WASM}", "-Coverflow-checks=on", "-Cpanic=abort", "-Cstrip=symbols"),
    has_sockets=False,
)
# names and notes of the compilers go, and a read may leave the program and come back; no
# call by a pointer stands on the way to a read
OPTIONS = (
    "-O1",
    "--strip-debug",
    "--strip-producers",
    "--asyncify",
    "--pass-arg=asyncify-imports@host.read",
    "--pass-arg=asyncify-ignore-indirect",
)
PACKAGES = "rustc libstd-rust-dev-wasm32 lld binaryen"


def missing() -> str:
    """What must be installed before the module can be compiled; empty if nothing is missing."""
    if not has_port_libraries():
        return "the Rattle toolchain"
    rustc = rustc_path()
    if rustc is None or shutil.which("wasm-opt") is None:
        return f"apt-get install {PACKAGES}"
    root = subprocess.run([rustc, "--print=sysroot"], capture_output=True, text=True)
    libraries = pathlib.Path(root.stdout.strip()) / "lib" / "rustlib" / WASM
    return "" if libraries.is_dir() else f"apt-get install {PACKAGES}"


def key() -> str:
    """What the module depends on: its sources in plain Rust and the compilers, as a digest."""
    versions = [
        subprocess.run(words, capture_output=True, text=True).stdout
        for words in ([str(rustc_path()), "--version"], ["wasm-opt", "--version"])
    ]
    digest = hashlib.sha256("\n".join([*versions, *TARGET.flags, *OPTIONS]).encode())
    for name in [*crates.below(crates.PROGRAM, has_sockets=False), crates.PROGRAM]:
        digest.update(f"\n{name} {TARGET.level_of(name)}\n".encode())
        for file, text in texts_of(name, has_sockets=False):
            digest.update(f"\n{file}\n{text}".encode())
    for path in sorted(TARGET.root.parent.glob("*.rs")):
        digest.update(path.read_bytes())
    return digest.hexdigest()


def compile_module(wasm: pathlib.Path, bar: Bar) -> None:
    """Compiles the module anew, and puts it there."""
    start = time.monotonic()

    def show(number: int, count: int) -> None:
        past = minutes(time.monotonic() - start)
        bar.show(
            number / count,
            f"compiling to WebAssembly, {past}, {number} of {count} crates",
        )

    wasm.parent.mkdir(parents=True, exist_ok=True)
    with tempfile.TemporaryDirectory(prefix="wasm-", dir=wasm.parent) as name:
        folder = pathlib.Path(name) / "crates"
        compile_target(TARGET, folder, say=show)
        smaller = pathlib.Path(name) / wasm.name
        words: List[object] = [
            "wasm-opt",
            *OPTIONS,
            folder / "module.wasm",
            "-o",
            smaller,
        ]
        process = subprocess.run(
            [str(word) for word in words], stderr=subprocess.PIPE, text=True
        )
        bar.clear()
        if process.returncode:
            raise CompilationError(f"wasm-opt: {process.stderr.strip()}")
        smaller.replace(wasm)


def module(out: pathlib.Path = OUT, bar: Optional[Bar] = None) -> pathlib.Path:
    """The module, which is compiled first if it is missing or its sources have changed."""
    wasm = out / "arena.wasm"
    key_file = out / "arena.wasm.key"
    current_key = key()
    if (
        not wasm.exists()
        or not key_file.exists()
        or key_file.read_text() != current_key
    ):
        compile_module(wasm, bar or Bar())
        key_file.write_text(current_key)
    return wasm


def main() -> int:
    lacking = missing()
    if lacking:
        print(f"arena: no module can be compiled: {lacking}", file=sys.stderr)
        return 1
    try:
        print(module())
    except CompilationError as error:
        print(f"arena: {error}", file=sys.stderr)
        return 1
    return 0


if __name__ == "__main__":
    sys.exit(main())
