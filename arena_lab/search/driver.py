"""The one driver of `arena explore`: the matches of a game, whose schedules the program
tries or draws, up to the first match that fails or is not tried as a whole. This
process tries them, or several, or the workers of a Dask scheduler. Each process has
machines of its own, which its matches share."""
import contextlib
import multiprocessing.util
import pickle
import signal
import sys
import time
from typing import (
    Any,
    Callable,
    Dict,
    Generator,
    Iterator,
    List,
    NamedTuple,
    Optional,
    Sequence,
)

from arena_lab.play.agent_files import digests
from arena_lab.play.parallel import Parallelism
from arena_lab.play.teams import Matches, digests_of
from arena_lab.search.machine_checks import Checks, CheckCounts
from arena_lab.search.findings import ExploreAnswer
from arena_lab.search.history_tree import NoFunctionError
from arena_lab.search.machines import Machines
from arena_lab.search.merge_checks import MERGES
from arena_lab.search.match_results import MatchResult
from arena_lab.search.program_search import STOPPED_TEXT, SampleRequest, run_search
from arena_lab.support.progress import NO_PROGRESS

# how many drawn schedules of a search are played by the agents
CHECKED_SAMPLES = 20
# hook that completes an explored match, for example by the Python model's search
After = Callable[[MatchResult, Any], MatchResult]


class NumberedMatch(NamedTuple):
    """A match of a game, by its number."""

    number: int


class ExploreJobResult(NamedTuple):
    """An explored match, with the counts of its checks."""

    match_result: MatchResult
    check_counts: CheckCounts


class ExploreJob(NamedTuple):
    """The data that a worker process needs to explore matches."""

    matches: Matches
    program: str
    states: int
    check: int
    draws: Optional[SampleRequest] = None

    def play(self, case: NumberedMatch) -> ExploreJobResult:
        """Tries a match in a process of a command."""
        matches = here(self)
        result, counts = matches.explore_match(case.number)
        return ExploreJobResult(result._replace(read_hashes=matches.read()), counts)

    def digests(self) -> Dict[str, str]:
        """Returns the SHA-256 of each file on which the findings depend."""
        return {**digests_of(self.matches.agents), **digests([self.program])}


class LocalMatches:
    """The matches of a game that this process tries."""

    def __init__(self, job: ExploreJob) -> None:
        self._job = job
        matches = job.matches
        self._machines = Machines(
            matches.fixtures[0],
            matches.agents,
            matches.limit,
            MERGES if job.check else 0,
        )
        self._checks = Checks(self._machines, matches, job.check)
        self._machines.start()
        self.stop = self._machines.stop
        self.read = self._machines.read_hashes

    def explore_match(
        self, number: int, progress: Any = NO_PROGRESS
    ) -> ExploreJobResult:
        """Tries the match of a number, and checks it."""
        fixture = self._job.matches.fixtures[number]
        counts = self._checks.counts()
        result = MatchResult(
            fixture,
            run_search(
                self._job.program,
                fixture,
                self._machines,
                self._job.states,
                progress,
                self._job.draws,
            ),
        )
        progress.clear()
        if result.is_whole():
            self._checks.check(fixture, result.answer.finding, progress, number)
        return ExploreJobResult(result, self._checks.counts().since(counts))


# cache of a worker process: pickled job -> its matches
HERE: Dict[bytes, LocalMatches] = {}


def here(job: ExploreJob) -> LocalMatches:
    """The matches of a job in this process. Asked to end, it ends the program that
    searches first."""
    job_bytes = pickle.dumps(job)
    if job_bytes not in HERE:
        HERE.clear()
        HERE[job_bytes] = LocalMatches(job)
        multiprocessing.util.Finalize(None, HERE[job_bytes].stop, exitpriority=1)
        signal.signal(signal.SIGTERM, lambda *_: sys.exit(1))
    return HERE[job_bytes]


class Search:
    """The explored matches of a game, the counts of checks, and the seconds taken."""

    def __init__(
        self,
        job: ExploreJob,
        parallelism: Optional[Parallelism] = None,
        before: Sequence[MatchResult] = (),
        after: After = lambda result, _: result,
    ) -> None:
        """This process tries them if no way is named. Those of earlier runs come first,
        and are not tried again."""
        self.tries: List[MatchResult] = list(before)
        self.checks = CheckCounts()
        self.seconds = 0.0
        self._job = job
        self._way = parallelism
        self._after = after

    def results(self, progress: Any) -> Iterator[MatchResult]:
        """Tries the matches; they come in their order, each once it was checked."""
        start = time.monotonic()
        with contextlib.closing(
            self._elsewhere(self._way, progress) if self._way else self._here(progress)
        ) as results:
            for result in results:
                self.checks = self.checks.plus(result.check_counts)
                match_result = self._after(result.match_result, progress)
                self.tries.append(match_result)
                yield match_result
                if not match_result.is_whole() or match_result.has_failed():
                    break
        self.seconds = time.monotonic() - start

    def _here(self, progress: Any) -> Generator[ExploreJobResult, None, None]:
        matches = LocalMatches(self._job)
        try:
            for number in range(len(self.tries), len(self._job.matches.fixtures)):
                yield matches.explore_match(number, progress)
        finally:
            matches.stop()

    def _elsewhere(
        self, parallelism: Parallelism, progress: Any
    ) -> Generator[ExploreJobResult, None, None]:
        fixtures = self._job.matches.fixtures
        cases = [
            NumberedMatch(number) for number in range(len(self.tries), len(fixtures))
        ]
        try:
            with contextlib.closing(
                parallelism.results(self._job, cases, is_long=True)
            ) as results:
                for result in results:
                    if result.fault:
                        raise NoFunctionError(result.fault)
                    progress.update()
                    yield result.result
        except KeyboardInterrupt:
            yield ExploreJobResult(
                MatchResult(
                    fixtures[len(self.tries)],
                    ExploreAnswer(None, 0.0, why=STOPPED_TEXT),
                ),
                CheckCounts(),
            )
