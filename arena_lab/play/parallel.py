"""Spreads the matches of a command over processes, or over the workers of a Dask
scheduler.

A job plays matches one by one. Its results come in the order of the matches, whoever
plays them.
"""
import concurrent.futures
import ctypes
import functools
import io
import multiprocessing
import os
import pickle
import signal
import subprocess
import sys
import time
from concurrent.futures.process import BrokenProcessPool
from typing import Any, Dict, Generator, List, NamedTuple, Optional, Protocol, Sequence

from arena_lab.play.imports import digest_named, digest_of
from arena_lab.support.built import TOP
from arena_lab.support.faults import ArenaError
from arena_lab.support.missing import require

# how many matches a process takes at a time and a Dask worker, if they are short or
# long
AT_A_TIME = {False: 4, True: 1}
BATCH = {False: 20, True: 4}
# how many seconds the scheduler may take to answer
SECONDS_TO_ANSWER = 20
# seconds in which a process ends that is asked to
SECONDS_TO_END = 3.0
# of Linux: asks for a signal when the parent ends
PR_SET_PDEATHSIG = 1
# what a Dask worker runs: the lab, in a process of its own
PLAY = (
    f"import sys; sys.path.insert(0, {str(TOP)!r}); import arena_lab; arena_lab.with_one_order(); "
    "from arena_lab.play.parallel import serve; serve()"
)


KILLED = (
    "a process that plays was killed, as where memory is short: start the same command again, by fewer --workers "
    "than {workers}"
)


class NumberedTask(Protocol):
    """A numbered match."""

    @property
    def number(self) -> int:
        ...


class Job(Protocol):
    """Plays matches; workers receive a pickled copy."""

    def play(self, case: Any) -> Any:
        """Plays a match and returns its result."""

    def digests(self) -> Dict[str, str]:
        """The SHA-256 of each file that results depend on, by name."""


class Result(NamedTuple):
    """The result of a match, or the fault that prevented it."""

    result: Any
    fault: str


class ClusterError(ArenaError):
    """No Dask scheduler answers, or its workers cannot play; says what to change."""


class Parallelism(NamedTuple):
    """The players of matches: a number of processes, or the workers of a Dask
    scheduler."""

    workers: int = 1
    cluster: Optional[str] = None

    def results(
        self, job: Job, cases: Sequence[NumberedTask], is_long: bool = False
    ) -> Generator[Result, None, None]:
        """The results of all matches, in order."""
        if cases:
            yield from (
                over_cluster(job, cases, self.cluster, is_long)
                if self.cluster
                else over_processes(job, cases, self.workers, is_long)
            )


def result_of(job: Job, case: NumberedTask) -> Result:
    if is_over is not None and is_over.is_set():
        return Result(None, f"run {case.number}: it is not played any more")
    try:
        return Result(job.play(case), "")
    except (ArenaError, OSError) as fault:
        return Result(None, f"run {case.number}: {fault}")


# of a worker: whether the command takes no more results
is_over: Any = None


def begin(over: Any, parent: int) -> None:
    """Begins a worker. An interrupt of the command reaches the command alone, which
    then ends its workers."""
    global is_over
    is_over = over
    signal.signal(signal.SIGINT, signal.SIG_IGN)
    signal.signal(signal.SIGTERM, signal.SIG_DFL)
    end_with(parent)


def end_with(parent: int, by: signal.Signals = signal.SIGTERM) -> None:
    """Has Linux end this process when the process that started it ends, also by a
    signal that cannot be caught."""
    ctypes.CDLL(None, use_errno=True).prctl(PR_SET_PDEATHSIG, by)
    if os.getppid() != parent:
        # it ended before
        os._exit(1)


def over_processes(
    job: Job, cases: Sequence[NumberedTask], workers: int, is_long: bool = False
) -> Generator[Result, None, None]:
    """Yields the results of all matches in order, played by `workers` processes in
    batches. If matches are long, closing the generator does not wait for matches in
    progress."""
    is_cut_short = is_long
    over = multiprocessing.Event()
    pool = concurrent.futures.ProcessPoolExecutor(
        workers, initializer=begin, initargs=(over, os.getpid())
    )
    try:
        yield from pool.map(
            functools.partial(result_of, job), cases, chunksize=AT_A_TIME[is_long]
        )
        is_cut_short = False
    except BrokenProcessPool:
        yield Result(None, KILLED.format(workers=workers))
    finally:
        # also those that wait in the pipe of a worker, which cannot be cancelled
        over.set()
        if is_cut_short:
            end_all(multiprocessing.active_children())
        pool.shutdown(wait=True, cancel_futures=True)


def end_all(processes: Sequence[Any]) -> None:
    """Ends processes. One that waits for what another held when it ended does not end
    by being asked."""
    for process in processes:
        process.terminate()
    last = time.monotonic() + SECONDS_TO_END
    for process in processes:
        process.join(max(0.0, last - time.monotonic()))
    for process in processes:
        process.kill()


def over_cluster(
    job: Job, cases: Sequence[NumberedTask], address: str, is_long: bool
) -> Generator[Result, None, None]:
    """The results of all matches, in order, by the workers of a Dask scheduler.

    A worker plays a batch in a process of its own, as agents inside the lab need a main
    thread. So a worker needs nothing of the lab but its folder, at the same path, and
    the same Python.
    """
    client = client_at(address)
    size = BATCH[is_long]
    batches = [cases[at : at + size] for at in range(0, len(cases), size)]
    files = {**job.digests(), **own_digests()}
    futures = [
        client.submit(
            subprocess.run,
            [sys.executable, "-c", PLAY],
            input=pickle.dumps((job, batch, files)),
            cwd=os.getcwd(),
            capture_output=True,
            pure=False,
        )
        for batch in batches
    ]
    try:
        for future in futures:
            yield from results_in(future)
    finally:
        client.cancel(futures)
        client.close()


def client_at(address: str) -> Any:
    """The client of a Dask scheduler that has workers."""
    dask = require("distributed")
    try:
        client = dask.Client(address, timeout=SECONDS_TO_ANSWER, set_as_default=False)
    except (OSError, ValueError) as fault:
        raise ClusterError(
            f"no Dask scheduler answers at {address} ({fault}): start one by `dask-scheduler`, and workers "
            "by `dask-worker --nthreads 1 ADDRESS`"
        ) from None
    if not client.scheduler_info()["workers"]:
        client.close()
        raise ClusterError(
            f"the Dask scheduler at {address} has no workers: start one for each processor by "
            f"`dask-worker --nthreads 1 {address}`"
        )
    return client


def results_in(future: Any) -> List[Result]:
    """The results of a batch."""
    try:
        batch = future.result()
    except Exception as fault:
        raise ClusterError(
            f"a Dask worker cannot play: {fault}; a worker needs the folder {TOP} and the program "
            f"{sys.executable}, as this machine has them"
        ) from None
    if batch.returncode != 0:
        lines = batch.stderr.decode(errors="replace").strip().splitlines()
        raise ClusterError(
            f"a Dask worker cannot play: {lines[-1] if lines else f'status {batch.returncode}'}"
        )
    results: List[Result] = pickle.loads(batch.stdout)
    return results


def own_digests() -> Dict[str, str]:
    """The SHA-256 of each file of the lab that plays."""
    return {
        str(path): digest_of(path) for path in sorted((TOP / "arena_lab").rglob("*.py"))
    }


def other_files(files: Dict[str, str]) -> List[str]:
    """Returns the files whose contents differ on this machine."""
    return [name for name, digest in files.items() if digest_named(name) != digest]


def serve() -> None:
    """Plays a batch that standard input gives, and writes the results to standard
    output."""
    job, batch, files = pickle.load(sys.stdin.buffer)
    answers = sys.stdout.buffer
    sys.stdout = io.StringIO()
    other_paths = other_files(files)
    if other_paths:
        sys.exit(
            f"{other_paths[0]} is not the file that it is on the machine of the command: a worker needs the same "
            "folder at the same path"
        )
    pickle.dump([result_of(job, case) for case in batch], answers)
