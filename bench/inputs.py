"""What the benchmarks share: tournaments as texts, and how long and how large one run
of a program is."""
import atexit
import functools
import os
import pathlib
import subprocess
import tempfile
import time
from typing import NamedTuple, Sequence

from arena_lab.rules.limits import MAX_LINE, MAX_QUOTA, SMALL_QUOTA

MIB = 1024 * 1024
PAUSE = 0.0005
# bytes of the longest text that a client can write, limited by the line with its
# command
LONGEST_TEXT = MAX_LINE - len('{"do":"write","expect":"","put":""}')


def key(game: int, agent: int) -> str:
    return f"k{game}-{agent}"


def tournament(
    name: str,
    matches: int,
    agents: int,
    board: int,
    version: int = 2,
    holes: Sequence[Sequence[int]] = (),
) -> str:
    """A tournament of matches on one network, each of its own team, with the largest
    quota of its version. The first of them have these black holes, which takes version
    2; the others are practice matches."""
    parts = [f'version = {version}\nseed = "{"0" * 64}"\n']
    quota = MAX_QUOTA if version == 3 else SMALL_QUOTA
    for game in range(matches):
        match_holes = list(holes[game]) if game < len(holes) else []
        hole = 'hole = "none"' if version == 1 else f"holes = {match_holes}"
        keys = ", ".join(f'"{key(game, agent)}"' for agent in range(agents))
        parts.append(
            f'[[match]]\nteam = "team-{game}"\nnetwork = "{name}"\nhome = 0\n{hole}\n'
            f"quota = {quota}\nboard = {board}\nkeys = [{keys}]\n"
        )
    return "".join(parts)


class Run(NamedTuple):
    """One run of a program: the seconds that it took, those that a processor worked for
    it, and the most memory, in KiB, that it held."""

    seconds: float
    processor: float
    peak: int


@functools.lru_cache(maxsize=None)
def timer() -> str:
    """The program that times others, compiled of c/timer.c."""
    folder = tempfile.TemporaryDirectory()
    atexit.register(folder.cleanup)
    path = str(pathlib.Path(folder.name) / "timer")
    source = str(pathlib.Path(__file__).resolve().parent / "c" / "timer.c")
    subprocess.run(
        ["cc", "-O2", "-Wall", "-Wextra", "-Werror", "-o", path, source], check=True
    )
    return path


def run(
    program: str,
    words: Sequence[str],
    source: pathlib.Path,
    folder: pathlib.Path,
    keeps: bool = False,
) -> Run:
    """One run of a program. What it prints goes to nobody, or is kept in memory, so
    that no reader and no disk is timed."""
    reader, teller = os.pipe()
    with open(reader) as figures, open(teller, "w") as tells, open(
        source, "rb"
    ) as source_file, open(
        os.memfd_create("printed") if keeps else os.devnull, "wb"
    ) as output_file:
        command = [timer(), str(tells.fileno()), program, *words]
        subprocess.run(
            command,
            stdin=source_file,
            stdout=output_file,
            cwd=folder,
            pass_fds=[tells.fileno()],
            check=True,
        )
        tells.close()
        seconds, processor, peak = figures.read().split()
        return Run(float(seconds), float(processor), int(peak))


def printed_by(
    program: str, words: Sequence[str], source: pathlib.Path, folder: pathlib.Path
) -> bytes:
    """What one run prints."""
    with open(source, "rb") as source_file:
        return subprocess.run(
            [program, *words],
            stdin=source_file,
            stdout=subprocess.PIPE,
            cwd=folder,
            check=True,
        ).stdout


def peak_so_far(child: subprocess.Popen) -> int:
    """The most memory, in KiB, that a program has held since it began; 0 if it has
    ended."""
    for line in pathlib.Path(f"/proc/{child.pid}/status").read_text().splitlines():
        if line.startswith("VmHWM:"):
            return int(line.split()[1])
    return 0


def peak_of_child(child: subprocess.Popen) -> int:
    """The most memory, in KiB, that a program holds until it ends: what the system said
    last before that, asked every half millisecond. What the system says afterwards
    counts the memory of the one that started it as well."""
    peak = 0
    while child.poll() is None:
        peak = max(peak, peak_so_far(child))
        time.sleep(PAUSE)
    return peak


def median_run(
    rounds: int,
    program: str,
    words: Sequence[str],
    source: pathlib.Path,
    folder: pathlib.Path,
) -> Run:
    """Of this many runs, that with the median time."""
    return sorted(run(program, words, source, folder) for _ in range(rounds))[
        rounds // 2
    ]
