"""Reads the processes of this machine from /proc. Each may end at any moment."""
import contextlib
import os
import pathlib
from typing import List

PROC = pathlib.Path("/proc")


def process_numbers(folder: pathlib.Path = PROC) -> List[int]:
    """The numbers of all processes, or of the threads in a folder of /proc; none if the
    folder's process has ended."""
    # a glob would check each entry, and fail if a process ends meanwhile
    with contextlib.suppress(OSError):
        return [int(name) for name in os.listdir(folder) if name.isdigit()]
    return []


def below(process: int) -> List[int]:
    """Returns a process and its descendants, except those whose parent has ended."""
    processes = []
    waiting = [process]
    while waiting:
        processes.append(waiting.pop())
        threads = PROC / str(processes[-1]) / "task"
        for thread in process_numbers(threads):
            with contextlib.suppress(OSError):
                waiting += map(
                    int, (threads / str(thread) / "children").read_text().split()
                )
    return processes


def is_alive(process: int) -> bool:
    """Returns whether a process runs; zombies count as ended."""
    with contextlib.suppress(OSError):
        return (PROC / str(process) / "stat").read_text().rpartition(")")[2].split()[
            0
        ] != "Z"
    return False


def command_words(process: int) -> List[str]:
    """Returns the command line of a process, or [] if it has ended or is a kernel
    thread."""
    with contextlib.suppress(OSError):
        return (
            (PROC / str(process) / "cmdline")
            .read_bytes()
            .decode(errors="replace")
            .rstrip("\0")
            .split("\0")
        )
    return []
