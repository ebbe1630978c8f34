"""Which processes a test has left behind."""
import time
from typing import List

from arena_lab.sandbox.processes import command_words, process_numbers

# A killed process that is no child of its killer stays listed until the kernel has run it once more.
SECONDS_TO_END = 10.0


def running(words: str) -> List[str]:
    """Returns the processes with these words on their command lines."""
    lines = [
        f"{process} {' '.join(command_words(process))}" for process in process_numbers()
    ]
    return [line for line in lines if words in line]


def remaining(words: str) -> List[str]:
    """Waits until no process has these words on its command line. Returns those that
    are left after `SECONDS_TO_END`."""
    limit = time.monotonic() + SECONDS_TO_END
    while running(words) and time.monotonic() < limit:
        time.sleep(0.05)
    return running(words)
