"""Compiles the crates of the port by rustc, several at a time.

A crate begins as soon as the metadata of those below it are written, as cargo has it.
"""
import concurrent.futures
import json
import os
import pathlib
import re
import shutil
import subprocess
import threading
from typing import Callable, Dict, List, NamedTuple, Sequence, Tuple

from arena_lab.support.built import ProgramError, has_port_libraries, rustc_path
from tools.port import crates, sources

# language features that a version of rustc lacks unless they are asked for, and the first that has them
FEATURES: Tuple[Tuple[str, Tuple[int, int]], ...] = (
    ("let_else", (1, 65)),
    ("generic_associated_types", (1, 65)),
    ("half_open_range_patterns", (1, 66)),
    ("ip", (1, 75)),
    ("exclusive_range_pattern", (1, 80)),
    ("io_error_more", (1, 83)),
)
OLDEST = (1, 63)


# crates in which a search or a match spends its time, and those that instantiate their generic functions
HOT = {
    crates.STD,
    "bhs_model",
    "bhs_state",
    "bhs_world",
    "bhs_match",
    "bhs_referee",
    "bhs_schedules",
    "bhs_explore",
    "bhs_wasm",
    "bhs_wasm_team",
    "bhs_cli_explore",
    "bhs_cli_run",
}


class CompilationError(ProgramError):
    """Compiling a crate failed, or rustc is missing; the text gives the reason."""


class Target(NamedTuple):
    """A program to compile: its root file, name and kind, rustc's flags, and whether it
    has sockets."""

    root: pathlib.Path
    name: str
    kind: str
    flags: Tuple[str, ...]
    has_sockets: bool = True

    def level_of(self, crate: str) -> str:
        """How far rustc optimises a crate: level 3 for all would take half as long again,
        and win nothing. The command line is read once, but counts in a page's size."""
        if crate in HOT:
            return "-Copt-level=3"
        return f"-Copt-level={0 if crate == 'clap' and self.has_sockets else 1}"


def version_of(rustc: str) -> Tuple[int, int]:
    """Returns the version of rustc, or (0, 0) if rustc prints none."""
    text = subprocess.run([rustc, "--version"], capture_output=True, text=True).stdout
    number = re.match(r"rustc (\d+)\.(\d+)", text)
    return (int(number[1]), int(number[2])) if number else (0, 0)


def feature_flags(version: Tuple[int, int]) -> List[str]:
    """The flags that turn on what this version of rustc has and does not call stable."""
    names = [name for name, since in FEATURES if version < since]
    return [f"-Zcrate-attr=feature({','.join(names)})"] if names else []


class Compilation:
    """Compiles a target and all its dependencies into one folder."""

    def __init__(
        self, rustc: str, target: Target, tops: Sequence[str], out: pathlib.Path
    ) -> None:
        self.rustc = rustc
        self.target = target
        self.out = out
        self.names = list(
            dict.fromkeys(name for top in tops for name in [*self.below(top), top])
        )
        self.flags = [*feature_flags(version_of(rustc)), *target.flags]
        self.has_metadata: Dict[str, threading.Event] = {
            name: threading.Event() for name in self.names
        }
        self.has_failed = threading.Event()
        self.children: List["subprocess.Popen[str]"] = []

    def below(self, name: str) -> List[str]:
        """All that a crate stands on, lowest first."""
        return crates.below(name, self.target.has_sockets)

    def command(
        self, name: str, root: pathlib.Path, kind: str, needs: Sequence[str]
    ) -> List[str]:
        """The words that compile a crate over libraries that are there."""
        suffix = "rlib" if kind != "rlib" else "rmeta"
        externs = [f"{crate}={self.out}/lib{crate}.{suffix}" for crate in needs]
        if kind == "bin":
            # the crate whose `main` the root file calls
            externs.append(f"program={self.out}/lib{needs[-1]}.{suffix}")
        return [
            self.rustc,
            "--edition=2021",
            f"--crate-type={kind}",
            f"--crate-name={name}",
            f"--out-dir={self.out}",
            f"-Ldependency={self.out}",
            "--cap-lints=allow",
            "--error-format=json",
            "--json=artifacts",
            *([] if kind != "rlib" else ["--emit=metadata,link"]),
            # the paths of this machine are in nothing that is compiled
            f"--remap-path-prefix={self.out}=.",
            f"--remap-path-prefix={crates.TOP}=.",
            *self.flags,
            self.target.level_of(name),
            *(word for extern in externs for word in ("--extern", extern)),
            str(root),
        ]

    def compile(self, name: str, words: List[str]) -> None:
        """Runs rustc, and notes when the metadata of a crate are written."""
        lines: List[str] = []
        with subprocess.Popen(
            words,
            stderr=subprocess.PIPE,
            text=True,
            env={**os.environ, "RUSTC_BOOTSTRAP": "1", "SOURCE_DATE_EPOCH": "0"},
        ) as child:
            self.children.append(child)
            assert child.stderr is not None
            for line in child.stderr:
                event = json.loads(line) if line.startswith("{") else {"rendered": line}
                if event.get("emit") == "metadata":
                    self.has_metadata[name].set()
                lines.append(event.get("rendered") or "")
        if child.returncode:
            self.has_failed.set()
            raise CompilationError(f"{name}: {''.join(lines).strip()}")

    def library(self, name: str) -> None:
        """Compiles a crate once those below it have their metadata."""
        root = sources.root_of(name, self.out / "src", self.target.has_sockets)
        below = self.below(name)
        for crate in below:
            self.has_metadata[crate].wait()
        try:
            if not self.has_failed.is_set():
                self.compile(name, self.command(name, root, "rlib", below))
        finally:
            self.has_metadata[name].set()

    def run(self, workers: int, say: Callable[[int, int], None]) -> None:
        """Compiles everything, and tells after each crate how many are compiled. Ends
        what is compiled meanwhile if it fails or is interrupted."""
        target = self.target
        count = len(self.names) + 1
        say(0, count)
        try:
            with concurrent.futures.ThreadPoolExecutor(workers) as pool:
                running = [pool.submit(self.library, name) for name in self.names]
                try:
                    futures = concurrent.futures.as_completed(running)
                    for number, future in enumerate(futures, 1):
                        future.result()
                        say(number, count)
                except BaseException:
                    self.stop()
                    raise
            words = self.command(target.name, target.root, target.kind, self.names)
            self.compile(target.name, words)
            say(count, count)
        except BaseException:
            self.stop()
            raise

    def stop(self) -> None:
        """Begins no other crate, and kills what is compiled."""
        self.has_failed.set()
        for child in self.children:
            child.kill()


def missing() -> str:
    """What the port lacks, and what to install or take; empty if nothing is missing."""
    rustc = rustc_path()
    if rustc is None:
        return "there is no rustc: install it by `apt install rustc`"
    if version_of(rustc) < OLDEST:
        oldest = f"{OLDEST[0]}.{OLDEST[1]}"
        return f"{rustc} is too old: version {oldest} or later is needed, which Debian has since its release 12"
    if not has_port_libraries():
        return (
            "rustc needs the libraries of Rattle's toolchain, which a clone has not: take the source archive of a "
            "release, arena-VERSION-source.tar.gz"
        )
    return ""


def compile_target(
    target: Target,
    out: pathlib.Path,
    tops: Sequence[str] = (crates.PROGRAM,),
    say: Callable[[int, int], None] = lambda done, all: None,
) -> None:
    """Compiles a program over these crates into a folder, which is emptied first."""
    rustc = rustc_path()
    if rustc is None or missing():
        raise CompilationError(missing())
    shutil.rmtree(out, ignore_errors=True)
    out.mkdir(parents=True)
    Compilation(rustc, target, tops, out).run(os.cpu_count() or 1, say)
