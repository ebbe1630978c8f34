"""Kits to begin an agent with, one for each language: a client, a sample agent that
searches a ring, and a first test.

A kit is a folder of examples/agents, and with it the files that it shares with the
samples there.
"""
import pathlib
import shutil
from typing import Dict, NamedTuple, Tuple

from arena_lab.play.agent_files import AGENTS
from arena_lab.support.faults import ArenaError

# of each kit, what building leaves in its folder
BUILD_OUTPUTS = (
    "out",
    "target",
    "Cargo.lock",
    "__pycache__",
    ".mypy_cache",
    "careful",
    "careful.wasm",
    "test_client",
)


class Kit(NamedTuple):
    """A language: its name, how its kit is built, tested and played, and the packages
    of Debian that it needs. `play` stands before the words of the sample agent, or is a
    WebAssembly module."""

    name: str
    build: str
    test: str
    play: str
    packages: Tuple[str, ...]
    shared_files: Tuple[str, ...] = ()

    @property
    def is_module(self) -> bool:
        return self.play.endswith(".wasm")


KITS: Dict[str, Kit] = {
    "python": Kit(
        "Python",
        "",
        "python3 -m unittest",
        "python3 careful.py",
        ("python3",),
        ("client.py",),
    ),
    "javascript": Kit("JavaScript", "", "node --test", "node careful.js", ("nodejs",)),
    "java": Kit(
        "Java",
        "make",
        "make test",
        "java -cp out:/usr/share/java/gson.jar Careful",
        ("openjdk-17-jdk-headless", "libgoogle-gson-java", "make"),
    ),
    "c": Kit("C", "make", "make test", "./careful", ("gcc", "libc6-dev", "make")),
    "cpp": Kit(
        "C++", "make", "make test", "./careful", ("g++", "nlohmann-json3-dev", "make")
    ),
    "rust": Kit(
        "Rust",
        "cargo build --release",
        "cargo test",
        "target/release/careful",
        ("cargo",),
    ),
    "go": Kit("Go", "go build", "go test", "./careful", ("golang-go",)),
    "wasm": Kit(
        "C as a WebAssembly module",
        "make",
        "",
        "careful.wasm",
        ("clang", "lld", "make"),
    ),
    "wasm-rust": Kit(
        "Rust as a WebAssembly module",
        "make",
        "",
        "careful.wasm",
        ("rustc", "libstd-rust-dev-wasm32", "lld", "make"),
    ),
}


def play_command(kit: Kit) -> str:
    """The command by which `./arena-lab run` plays the sample agent of a kit, in its
    folder."""
    return kit.play + (":{nodes}" if kit.is_module else " {host} {port} {key} {nodes}")


def write_kit(language: str, folder: pathlib.Path) -> Kit:
    """Copies the kit of a language to a folder that is not there yet, or is empty."""
    kit = KITS[language]
    source = AGENTS / language
    if folder.exists() and (not folder.is_dir() or any(folder.iterdir())):
        raise ArenaError(f"{folder}: there is something already; name a new folder")
    shutil.copytree(
        source,
        folder,
        ignore=shutil.ignore_patterns(*BUILD_OUTPUTS),
        dirs_exist_ok=True,
    )
    for name in kit.shared_files:
        shutil.copy(AGENTS / name, folder / name)
    return kit
