"""Plays rows of a table again, and tells those that come out otherwise."""
import random
import sys
from typing import Iterable, List, NamedTuple, Optional, Sequence

from arena_lab.play.parallel import Result
from arena_lab.support.progress import along
from arena_lab.sweep.tables import COLUMNS

ALL = 0


class Differing(NamedTuple):
    """A row that comes out otherwise: its number, and the columns that differ."""

    run: int
    columns: List[str]


def chosen(count: int, limit: int) -> List[int]:
    """The numbers of rows to play again: all, or the wanted number of them, drawn anew
    each time."""
    if limit == ALL or limit >= count:
        return list(range(count))
    return sorted(random.SystemRandom().sample(range(count), limit))


def differing(
    run: int, before: Sequence[str], now: Sequence[str]
) -> Optional[Differing]:
    """How a row differs from what comes out now."""
    names = [
        name
        for name, old, new in zip(COLUMNS, before, now)
        if old != new and name != "check"
    ]
    if len(before) != len(now) and "fault" not in names:
        names.append("fault")
    return Differing(run, names) if names else None


def differing_rows(
    numbers: Sequence[int], rows: Sequence[Sequence[str]], results: Iterable[Result]
) -> List[Differing]:
    """The rows of these numbers that come out otherwise."""
    row_differences = []
    for number, result in zip(numbers, along(results, len(numbers), "run")):
        now = result.result if not result.fault else [*rows[number][:-1], result.fault]
        row_differences.append(differing(number, rows[number], now))
    return [difference for difference in row_differences if difference]


def report_differences(
    numbers: Sequence[int], total: int, differences: Sequence[Differing]
) -> int:
    """Says what came of it; gives the exit status."""
    for difference in differences:
        print(
            f"run {difference.run} comes out otherwise: {', '.join(difference.columns)}",
            file=sys.stderr,
        )
    print(
        f"{len(numbers)} of {total} rows were played again: {len(differences)} differ"
    )
    return 1 if differences else 0
