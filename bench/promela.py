"""Runs the model checker SPIN on models of the sample search of rings, to compare it
with `./arena-lab explore`.

SPIN (G. J. Holzmann, "The Model Checker SPIN", 1997) makes a program of a model, which
searches all states of one match after another: each node but the home base is the black
hole in turn. `models/ring_natural.pml` is the search as one would write it down, for
SPIN's own partial order reduction; in `models/ring_merged.pml` departures and arrivals
that nobody can know of are merged by hand into the step before. Several processors
search one model by SPIN's processes, which share the table of states.
"""
import contextlib
import os
import pathlib
import re
import shutil
import signal
import subprocess
import tempfile
import time
from typing import List, NamedTuple

MODELS = pathlib.Path(__file__).resolve().parent / "models"
HAS_SPIN = shutil.which("spin") is not None and shutil.which("cc") is not None
# no depth is reached that is greater
SEARCH = ["-E", "-m1000000"]
# the table of states has 2^22 places at first, and 2^25 if processes share it, since it
# does not grow then
TABLE = ["-w22"]
SHARED_TABLE = ["-w25"]


class Model(NamedTuple):
    """A model, and how SPIN's program is compiled so that it searches it fastest."""

    name: str
    options: List[str]


NATURAL = Model("ring_natural", ["-DSAFETY", "-DCOLLAPSE"])
MERGED_MODEL = Model("ring_merged", ["-DSAFETY", "-DNOREDUCE"])


class SpinResult(NamedTuple):
    """What a search came to, in how many seconds; and in how many seconds of a
    processor and with how many megabytes, of its first process if there are several."""

    states: int
    moves: int
    errors: int
    whole: float
    processor: float
    memory: float


def search(
    model: Model, nodes: int, source: str = "", processors: int = 1
) -> SpinResult:
    """Searches all schedules of a model, or of another source, on a ring of this many
    nodes, by a process for each processor. To compile the program takes no part of the
    time."""
    with tempfile.TemporaryDirectory(prefix="spin-") as name:
        folder = pathlib.Path(name)
        text = source or (MODELS / f"{model.name}.pml").read_text(encoding="utf-8")
        (folder / "model.pml").write_text(text, encoding="utf-8")
        subprocess.run(
            ["spin", "-a", f"-DN={nodes}", "model.pml"],
            cwd=folder,
            check=True,
            stdout=subprocess.DEVNULL,
        )
        options = [
            *model.options,
            *(memory_options(processors) if processors > 1 else []),
        ]
        subprocess.run(
            ["cc", "-O2", "-w", *options, "-o", "pan", "pan.c"],
            cwd=folder,
            check=True,
        )
        return run_spin(folder, SHARED_TABLE if processors > 1 else TABLE)


def memory_options(processors: int) -> List[str]:
    """The options for processes that share at most half of the machine's memory."""
    pages = os.sysconf("SC_PHYS_PAGES") * os.sysconf("SC_PAGE_SIZE")
    return [f"-DNCORE={processors}", f"-DMEMLIM={pages // 2**21}"]


def run_spin(folder: pathlib.Path, table: List[str]) -> SpinResult:
    """What the compiled program comes to."""
    start = time.monotonic()
    with (folder / "printed").open("wb+") as output_file:
        child = subprocess.Popen(
            [str(folder / "pan"), *SEARCH, *table],
            cwd=folder,
            stdout=output_file,
            start_new_session=True,
        )
        try:
            _, status, usage = os.wait4(child.pid, 0)
            child.returncode = os.waitstatus_to_exitcode(status)
            whole = time.monotonic() - start
        finally:
            # those that the first process started
            with contextlib.suppress(ProcessLookupError):
                os.killpg(child.pid, signal.SIGKILL)
    text = (folder / "printed").read_text(encoding="utf-8")
    # a process of several that finds one says no more
    errors = text.count("assertion violated")
    if not errors and (
        "max search depth too small" in text
        or "Search not completed" in text
        or number(r"errors: (\d+)", text) != 0
    ):
        raise RuntimeError(f"SPIN did not search all states:\n{text}")
    return SpinResult(
        0 if errors else int(number(r"([\d.e+]+) states, stored", text)),
        max(map(int, re.findall(r"MOST MOVES (\d+)", text)), default=0),
        errors,
        whole,
        usage.ru_utime + usage.ru_stime,
        usage.ru_maxrss / 1024,
    )


def number(pattern: str, text: str) -> float:
    """The number that this pattern finds in what SPIN's program printed."""
    match = re.search(pattern, text)
    if match is None:
        raise RuntimeError(f"SPIN printed no {pattern}:\n{text}")
    return float(match[1])
