"""How a tool that tests says what it found: its last line reads `N passed, M failed`,
lines that begin with `skipped: ` say what was left out, and its exit status is 1 if
something failed."""
import re
from typing import Optional, Tuple

SKIPPED = "skipped: "
COUNTS = re.compile(r"(\d+) passed, (\d+) failed")
Counts = Tuple[int, int]


class FailedCheckError(Exception):
    """A check failed; the text says which."""


def require(condition: object, *words: object) -> None:
    """Raises Wrong with these words if the condition is false."""
    if not condition:
        raise FailedCheckError(" ".join(map(str, words)))


def wants(what: str, result: object, expectation: object) -> None:
    """Raises Wrong if the value found is not the one wanted."""
    require(result == expectation, f"{what}: {result!r} and not {expectation!r}")


def report_counts(passes: int, failures: int) -> int:
    """Prints the last line of a tool; gives its exit status."""
    print(f"{passes} passed, {failures} failed", flush=True)
    return int(failures > 0)


def counts_in(line: str) -> Optional[Counts]:
    """Parses the line of counts at the end of an output; None for other lines."""
    match = COUNTS.fullmatch(line.strip())
    return (int(match[1]), int(match[2])) if match else None
