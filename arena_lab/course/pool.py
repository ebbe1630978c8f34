"""Plays matches of all teams of a course by one pool of processes, within the time and
the space on disk that each team has."""
import concurrent.futures
import math
import multiprocessing
import os
from concurrent.futures import FIRST_COMPLETED, Future
from concurrent.futures.process import BrokenProcessPool
from typing import Any, Callable, Dict, Iterator, NamedTuple, Optional, Sequence

from arena_lab.play.parallel import KILLED, Job, Result, begin, result_of


class TimedResult(NamedTuple):
    """The result of a match, with its seconds and the bytes written."""

    result: Any
    seconds: float
    size: int = 0


class Budget(NamedTuple):
    """How many seconds all matches of a team may take, how many those of each team have
    taken, and the same of the MB that are written of them."""

    limit: int
    seconds: Dict[str, float]
    space: float = math.inf
    wrote: Dict[str, float] = {}

    def take(self, team: str, timed_result: TimedResult) -> None:
        """Counts what came of a match."""
        self.seconds[team] += timed_result.seconds
        self.wrote[team] = self.wrote.get(team, 0.0) + timed_result.size / (1 << 20)

    def says(self, team: str) -> str:
        """Returns why a match of this team is skipped: its time or its disk quota is
        used up; "" if neither is."""
        if self.seconds[team] > self.limit:
            return f"the matches of the team have taken the {self.limit} s that it has"
        if self.wrote.get(team, 0.0) > self.space:
            return f"the matches of the team have taken the {self.space:g} MB of disk that it has"
        return ""


class LimitedJob(NamedTuple):
    """The time of the teams, whose a match is, and what comes instead of a result once
    the time of its team is up."""

    budget: Budget
    team_of: Callable[[Any], str]
    instead: Callable[[Any], Any]
    # the job that plays a match which starts now, and a callback for each finished
    # match
    job_of: Optional[Callable[[Any], Job]] = None
    note: Optional[Callable[[Any, Any], None]] = None


def in_time(
    job: Job, queue: Sequence[Any], workers: int, limited_job: LimitedJob
) -> Iterator[Result]:
    """The results of matches, or of repetitions, in order, by this number of processes.
    Once a team's time is up, others come instead of its results."""
    over = multiprocessing.Event()
    pool = concurrent.futures.ProcessPoolExecutor(
        workers, initializer=begin, initargs=(over, os.getpid())
    )
    try:
        yield from MatchQueue(job, queue, limited_job).results(pool, workers)
    except BrokenProcessPool:
        yield Result(None, KILLED.format(workers=workers))
    finally:
        over.set()
        pool.shutdown(wait=True, cancel_futures=True)


class MatchQueue:
    """Matches that wait for a process, those that are played, and results that wait for
    earlier ones."""

    def __init__(self, job: Job, queue: Sequence[Any], limited_job: LimitedJob) -> None:
        self._job = job
        self._left = queue
        self._limited = limited_job
        self._begun = 0
        self._running: "Dict[Future[Result], int]" = {}
        self._done: Dict[int, Result] = {}

    def results(
        self, pool: concurrent.futures.Executor, workers: int
    ) -> Iterator[Result]:
        """The results in the order of the matches."""
        for number in range(len(self._left)):
            while number not in self._done:
                self._begin(pool, workers)
                self._wait()
            result = self._done.pop(number)
            yield result
            if result.fault:
                return

    def _begin(self, pool: concurrent.futures.Executor, workers: int) -> None:
        """Begins as many matches as there are processes. A team whose time is up plays
        no more."""
        budget, team_of, instead, job_of, _ = self._limited
        while len(self._running) < workers and self._begun < len(self._left):
            match = self._left[self._begun]
            number = self._begun
            self._begun += 1
            if budget.says(team_of(match)):
                self._done[number] = Result(instead(match), "")
            else:
                job = job_of(match) if job_of else self._job
                self._running[pool.submit(result_of, job, match)] = number

    def _wait(self) -> None:
        """Waits until a running match ends; returns at once if none runs."""
        finished_futures, _ = concurrent.futures.wait(
            self._running, return_when=FIRST_COMPLETED
        )
        for future in finished_futures:
            number = self._running.pop(future)
            result = future.result()
            if not result.fault:
                self._limited.budget.take(
                    self._limited.team_of(self._left[number]), result.result
                )
                result = Result(result.result.result, "")
                if self._limited.note:
                    self._limited.note(self._left[number], result.result)
            self._done[number] = result
