"""Makes a schedule after which a team fails small.

A schedule is taken as `hunt` takes it: as runs, each of which says which of the
possible choices, and how often in a row; behind the last run it is always the first
choice. Runs are left out and shortened as long as the team still fails.
"""
import itertools
from typing import Callable, Iterator, List, Optional, Sequence, Tuple

from arena_lab.play.schedulers import Choice, Scheduler, MatchView

Runs = List[Tuple[int, int]]


def noting_scheduler(scheduler: Scheduler, numbers: List[int]) -> Scheduler:
    """The scheduler, which notes the number of each choice that it makes among
    several."""

    def choose(choices: Sequence[Choice], state: MatchView) -> Choice:
        choice = scheduler(choices, state)
        if len(choices) > 1:
            numbers.append(choices.index(choice))
        return choice

    return choose


def runs_of(numbers: Sequence[int]) -> Runs:
    """Choices by their numbers, as runs."""
    return tidy(
        [(number, len(list(same))) for number, same in itertools.groupby(numbers)]
    )


def tidy(runs: Runs) -> Runs:
    """The same choices in as few runs as possible."""
    merged_runs: Runs = []
    for which, times in runs:
        if merged_runs and merged_runs[-1][0] == which:
            merged_runs[-1] = which, merged_runs[-1][1] + times
        elif times:
            merged_runs.append((which, times))
    while merged_runs and merged_runs[-1][0] == 0:
        merged_runs.pop()
    return merged_runs


def size(runs: Runs) -> Tuple[int, int, int]:
    """How large a schedule is: fewer runs are smaller, then shorter ones, then lower
    numbers."""
    return len(runs), sum(times for _, times in runs), sum(which for which, _ in runs)


def smaller(runs: Runs) -> Iterator[Runs]:
    """Smaller schedules, the smallest first: without some runs, with shorter runs, with
    lower numbers."""
    yield []
    length = len(runs)
    while length := length // 2:
        for start in range(0, len(runs), length):
            yield tidy(runs[:start] + runs[start + length :])
    for index, (which, times) in enumerate(runs):
        for less in dict.fromkeys((1, times // 2, times - 1)):
            if 0 < less < times:
                yield tidy([*runs[:index], (which, less), *runs[index + 1 :]])
        for lower in range(which):
            yield tidy([*runs[:index], (lower, times), *runs[index + 1 :]])


ORDINALS = ("first", "second", "third", "fourth", "fifth", "sixth", "seventh", "eighth")


def in_words(runs: Runs) -> str:
    """Describes a schedule in words."""
    names = [
        ORDINALS[which] if which < len(ORDINALS) else f"one at place {which + 1}"
        for which, _ in runs
    ]
    phrases = [
        f"the {name} {'once' if times == 1 else f'{times} times'}"
        for name, (_, times) in zip(names, runs)
    ]
    return f"of the agents that can go on, {', then '.join([*phrases, 'always the first'])}"


class Cut:
    """A schedule that is made small: the runs that are left, and how many were
    tried."""

    def __init__(
        self,
        runs: Runs,
        fails: Callable[[Runs], bool],
        limit: int,
        is_late: Callable[[], bool] = lambda: False,
    ) -> None:
        self.runs = runs
        self.tried = 0
        self._fails = fails
        self._most = limit
        self._is_late = is_late
        while (smaller_runs := self._step()) is not None:
            self.runs = smaller_runs

    def _step(self) -> Optional[Runs]:
        """The first smaller schedule after which the team fails."""
        for runs in smaller(self.runs):
            if size(runs) >= size(self.runs):
                continue
            if self.tried >= self._most or self._is_late():
                return None
            self.tried += 1
            if self._fails(runs):
                return runs
        return None
