"""How long a build of many crates still takes, by how long the proof of each took
before: for the bar of tools/build."""
import pathlib
import statistics
from typing import Dict, Set

from tools.prove.prover import Libraries, below

SECONDS = pathlib.Path(__file__).resolve().parent / "proof_seconds"
# a crate that takes longer than it should is still taken to need this part of its time
LAST_PART = 0.1
# how much of the pace is taken from earlier runs: as if this many of their seconds had
# taken as long here
TRUST = 60.0


def seconds_of(text: str) -> Dict[str, float]:
    """The seconds of each crate, by the lines of the file."""
    rows = [
        line.split() for line in text.splitlines() if line and not line.startswith("#")
    ]
    return {name: float(seconds) for name, seconds in rows}


def text_of(seconds: Dict[str, float], before: str) -> str:
    """Returns the text of the seconds file, with its previous comment."""
    head = "".join(
        line for line in before.splitlines(keepends=True) if line.startswith("#")
    )
    return head + "".join(
        f"{name} {value:.0f}\n" for name, value in sorted(seconds.items())
    )


class Forecast:
    """How far a build is. Times are those of one clock, in seconds."""

    def __init__(
        self,
        libraries: Libraries,
        crates: Set[str],
        seconds: Dict[str, float],
        workers: int,
    ) -> None:
        """A build of these crates by `workers` workers. A crate without an earlier time
        gets the median."""
        median_seconds = statistics.median(seconds.values()) if seconds else 1.0
        self._seconds = {name: seconds.get(name, median_seconds) for name in crates}
        self._needs = {
            name: [crate for crate in below(libraries, name) if crate in crates]
            for name in crates
        }
        self._workers = workers
        self._begun: Dict[str, float] = {}
        self._took: Dict[str, float] = {}

    def begin(self, name: str, now: float) -> None:
        self._begun[name] = now

    def end(self, name: str, now: float) -> None:
        self._took[name] = now - self._begun.pop(name)

    def _pace(self) -> float:
        """Returns the ratio of current to recorded seconds over the finished crates."""
        expected_seconds = sum(self._seconds[name] for name in self._took)
        return (sum(self._took.values()) + TRUST) / (expected_seconds + TRUST)

    def _left(self, now: float) -> Dict[str, float]:
        """What each crate still needs, in earlier seconds."""
        pace = self._pace()
        seconds_by_crate = {}
        for name, seconds in self._seconds.items():
            past = (now - self._begun[name]) / pace if name in self._begun else 0.0
            seconds_by_crate[name] = (
                0.0 if name in self._took else max(seconds - past, LAST_PART * seconds)
            )
        return seconds_by_crate

    def share(self, now: float) -> float:
        """The part of the work that is done."""
        total = sum(self._seconds.values())
        return 1 - sum(self._left(now).values()) / total if total else 1.0

    def seconds_left(self, now: float) -> float:
        """Returns how long it still takes: as long as its longest chain of crates that
        wait for each other, and as all of them on that many workers."""
        seconds_by_crate = self._left(now)
        chain = {}
        for name in sorted(seconds_by_crate, key=lambda crate: len(self._needs[crate])):
            chain[name] = seconds_by_crate[name] + max(
                (chain[need] for need in self._needs[name]), default=0.0
            )
        return self._pace() * max(
            sum(seconds_by_crate.values()) / self._workers,
            max(chain.values(), default=0.0),
        )
