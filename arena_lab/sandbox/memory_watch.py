"""Watches how much memory the programs of a match take, each with all that it has
started. The system bounds the memory of one process; a program has many. What is
counted is seen a few times a second, so a quick program may take somewhat more before
it is ended. Pages of its processes, their tables, and shared memory by its size are
counted. Memory that belongs to no process, such as what waits in pipes and sockets, is
bounded by the number of files and processes alone.
"""
import contextlib
import os
import pathlib
import threading
from typing import Any, Callable, Dict, Sequence

# memory limit in bytes of a program with its descendants, and the interval of checks in
# seconds
MAX_MEMORY = 2 << 30
EVERY = 0.05
TOO_MUCH = (
    f"has taken more than {MAX_MEMORY >> 30} GB of memory with all that it has started"
)
PAGE = os.sysconf("SC_PAGE_SIZE")
# what the system holds for each file in memory, besides its bytes
BYTES_OF_A_FILE = 1024
# lines of /proc/PROCESS/status: pages of its own and of files, and what tables of pages
# take; of smaps_rollup the shares of the first; and how maps end that are of shared
# memory without a name
OWN_MEMORY = ("RssAnon:", "RssFile:", "VmSwap:")
TABLES = ("VmPTE:",)
SHARES = ("Pss_Anon:", "Pss_File:", "SwapPss:")
SHARED_MEMORY = "/dev/zero (deleted)"


class MemoryWatch:
    """While it is open, looks at all programs, and ends one that takes too much by its
    own call."""

    def __init__(
        self, looks: Sequence[Callable[[], str]], ends: Sequence[Callable[[str], None]]
    ) -> None:
        """The first say of each program of what it takes too much, or nothing."""
        self._looks = looks
        self._ends = ends
        self._is_over = threading.Event()
        self._thread = threading.Thread(target=self._look, daemon=True)

    def __enter__(self) -> "MemoryWatch":
        self._thread.start()
        return self

    def __exit__(self, *_: Any) -> None:
        self._is_over.set()
        self._thread.join()

    def _look(self) -> None:
        while not self._is_over.wait(EVERY):
            for excess, end in zip(self._looks, self._ends):
                with contextlib.suppress(OSError):
                    if fault := excess():
                        end(fault)


def memory_of(processes: Sequence[int]) -> int:
    """The bytes of memory that these processes take. Who has few addresses takes
    little; else tables of pages count too, and memory that processes share by its size,
    as what they have given back of it is taken all the same. Pages of their own that
    several have count once, if it may matter."""
    addresses, resident = (
        sum(
            memory_count(
                process, "statm", lambda text: int(text.split()[column]) * PAGE
            )
            for process in processes
        )
        for column in (0, 1)
    )
    if addresses <= MAX_MEMORY:
        return resident
    shared_bytes = sum(sizes_of_shared(processes).values())
    quick = shared_bytes + sum(
        memory_count(
            process, "status", lambda text: bytes_in(text, OWN_MEMORY + TABLES)
        )
        for process in processes
    )
    if quick <= MAX_MEMORY:
        return quick
    tables = sum(
        memory_count(process, "status", lambda text: bytes_in(text, TABLES))
        for process in processes
    )
    return (
        shared_bytes
        + tables
        + sum(
            memory_count(process, "smaps_rollup", lambda text: bytes_in(text, SHARES))
            for process in processes
        )
    )


def bytes_in(text: str, names: Sequence[str]) -> int:
    """The bytes that these lines of a text say, in whose numbers stand kilobytes."""
    return sum(
        int(line.split()[1]) << 10
        for line in text.splitlines()
        if line.startswith(tuple(names))
    )


def sizes_of_shared(processes: Sequence[int]) -> Dict[str, int]:
    """The bytes of each piece of memory without a name that processes share, by its
    number."""
    sizes: Dict[str, int] = {}
    for process in processes:
        with contextlib.suppress(OSError, ValueError):
            for line in (
                pathlib.Path(f"/proc/{process}/maps")
                .read_text(errors="replace")
                .splitlines()
            ):
                if line.endswith(SHARED_MEMORY):
                    addresses, _, offset, _, number, *_ = line.split()
                    first, last = (int(part, 16) for part in addresses.split("-"))
                    sizes[number] = max(
                        sizes.get(number, 0), int(offset, 16) + last - first
                    )
    return sizes


def memory_count(process: int, name: str, count: Callable[[str], int]) -> int:
    """Reads a number from a file of /proc for a process; 0 if it has ended."""
    try:
        return count(pathlib.Path(f"/proc/{process}/{name}").read_text())
    except (OSError, IndexError, ValueError):
        return 0


def space_of(folder: str) -> int:
    """The bytes of memory that a file system in memory takes."""
    file_system = os.statvfs(folder)
    return (file_system.f_blocks - file_system.f_bfree) * file_system.f_frsize + (
        file_system.f_files - file_system.f_ffree
    ) * BYTES_OF_A_FILE
