"""What programs leave in the kernel for later ones, and how that is made useless."""
import os
import pathlib
import subprocess
import sys

from arena_lab.support.faults import ArenaError

STIRRING = pathlib.Path(__file__).resolve().parent / "kernel_noise.py"
# of Linux: what is written there has it forget what it keeps of files
CACHES = pathlib.Path("/proc/sys/vm/drop_caches")


class CacheError(ArenaError):
    """The caches of the machine cannot be dropped; says what to change."""


def stir() -> None:
    """Has the numbers of pipes and sockets, and those of memory that processes share,
    go on by numbers that nobody knows, on all processors at a time."""
    children = [
        subprocess.Popen([sys.executable, "-I", "-S", str(STIRRING), str(processor)])
        for processor in os.sched_getaffinity(0)
    ]
    for child in children:
        child.wait()


def forget() -> None:
    """Drops the kernel's caches of file contents and of missing names."""
    os.sync()
    try:
        CACHES.write_text("3\n")
    except OSError as fault:
        raise CacheError(
            f"{CACHES}: {fault.strerror}: root may drop the caches; leave out --drop-caches"
        ) from None
