"""Workers of a hall that go on one call of the database at a time: what they run is
the hall's own code, and whoever tests it says which thread goes on, which process is
told to end or is killed, and how much time passes.

A thread stops before each statement and wherever it waits. While one is within a
transaction those that want to write wait for it, as SQLite has them wait. A process
that is killed leaves its transaction undone.
"""
import contextlib
import shutil
import threading
from typing import Any, Callable, Dict, Iterator, List
from unittest import mock

from tests.support import halls

halls.started_hall()

from django.db import connection, connections  # noqa: E402

from arena_lab.hall import children, work_steps, worker  # noqa: E402
from arena_lab.hall.handins import grading_work  # noqa: E402

READS = "SELECT"
BEGINS = "BEGIN"
# how often `grade` is looked at before it has ended
LOOKS = 2
PATIENCE = 60.0
LOCAL = threading.local()


class KilledError(BaseException):
    """The process is killed here."""


class StepThread:
    """A thread of a simulated process, which continues on request."""

    def __init__(
        self, process: "Process", does: Callable[..., None], arguments: Any
    ) -> None:
        self.process = process
        self.has_ended = False
        # kind of the next statement, and whether a transaction is open
        self.before = READS
        self.is_within = False
        self._does = does
        self._given = arguments
        self._go = threading.Semaphore(0)
        self._stands = threading.Semaphore(0)
        threading.Thread(target=self._main, daemon=True).start()

    def _main(self) -> None:
        LOCAL.thread = self
        with contextlib.suppress(KilledError), connection.execute_wrapper(
            self._execute
        ):
            self.stand(READS)
            self._does(*self._given)
        with contextlib.suppress(KilledError):
            connections.close_all()
        self.is_within = False
        self.has_ended = True
        self._stands.release()

    def stand(self, before: str) -> None:
        """Stands before a statement until it is told to go on."""
        self.before = before
        self.is_within = connection.in_atomic_block
        self._stands.release()
        self._go.acquire()
        if self.process.is_killed:
            raise KilledError

    def _execute(
        self, execute: Any, sql: str, params: Any, many: bool, context: Any
    ) -> Any:
        self.stand(sql.partition(" ")[0])
        if self.before == BEGINS:
            self.process.began_stopped = self.process.stopped
        return execute(sql, params, many, context)

    def go(self) -> None:
        """Goes on to where it stands next, or to its end."""
        self._go.release()
        assert self._stands.acquire(timeout=PATIENCE), "a thread is stuck"

    def settle(self) -> None:
        """Waits until it stands for the first time."""
        assert self._stands.acquire(timeout=PATIENCE), "a thread is stuck"


class Process:
    """A worker process with its threads."""

    def __init__(self, workers: "Workers") -> None:
        self.stopped = False
        self.is_killed = False
        # whether it was told to end before its last transaction began
        self.began_stopped = False
        self.workers = workers
        self.threads: List[StepThread] = []
        self.start(worker.work, (Stop(),))

    def start(self, does: Callable[..., None], arguments: Any) -> None:
        step_thread = StepThread(self, does, arguments)
        step_thread.settle()
        self.threads.append(step_thread)

    def living(self) -> List[StepThread]:
        return [thread for thread in self.threads if not thread.has_ended]

    def kill(self) -> None:
        self.is_killed = True
        for thread in self.living():
            while not thread.has_ended:
                thread.go()


class Stop:
    """In the place of the event that says that this process is told to end."""

    def is_set(self) -> bool:
        return bool(LOCAL.thread.process.stopped)

    def wait(self, seconds: float = 0) -> bool:
        LOCAL.thread.stand(READS)
        return self.is_set()


class Clock:
    """In the place of the module `time`."""

    def __init__(self) -> None:
        self.now = 1_000.0

    def monotonic(self) -> float:
        return self.now

    def sleep(self, seconds: float) -> None:
        LOCAL.thread.stand(READS)


class Thread:
    """In the place of `threading.Thread`, by which a worker begins a piece of work."""

    def __init__(self, target: Callable[..., None], args: Any) -> None:
        self._given = target, args

    def start(self) -> None:
        process = LOCAL.thread.process
        caller = LOCAL.thread
        process.start(*self._given)
        LOCAL.thread = caller


class Workers:
    """Two worker processes of a hall, its clock, and what grades: a program that has
    solved its match."""

    def __init__(self) -> None:
        self.clock = Clock()
        self.processes: Dict[int, Process] = {}
        self.broken_rules: List[str] = []
        self._held = contextlib.ExitStack()
        claimed_value = work_steps.claim_work

        def watch(work: Any, name: str) -> Any:
            if LOCAL.thread.process.began_stopped:
                self.broken_rules.append(f"{work} is claimed after the stop")
            return claimed_value(work, name)

        for module, name, instead in (
            (work_steps, "time", self.clock),
            (worker, "time", self.clock),
            (work_steps, "STOP_EVENT", Stop()),
            (worker, "STOP_EVENT", Stop()),
            (worker, "claim_work", watch),
            (worker, "threading", mock.Mock(Thread=Thread)),
            (worker, "log_line", lambda line: self.broken_rules.append(line)),
            (work_steps, "log_line", lambda line: None),
            (children.subprocess, "Popen", fake_grade),
            (children.sandboxes, "remove", shutil.rmtree),
        ):
            self._held.enter_context(mock.patch.object(module, name, instead))

    def start(self, number: int) -> None:
        """Starts a process, if it does not live."""
        if number not in self.processes or not self.processes[number].living():
            self.processes[number] = Process(self)

    def ready(self) -> List[StepThread]:
        """Returns the threads that can continue: writers wait for an open
        transaction."""
        living = [it for process in self.processes.values() for it in process.living()]
        is_taken = any(it.is_within for it in living)
        return [
            it for it in living if it.is_within or it.before == READS or not is_taken
        ]

    def close(self) -> None:
        for process in self.processes.values():
            process.kill()
        self._held.close()


def fake_grade(words: Any, cwd: Any, **args: Any) -> Any:
    """Replaces `grade`, which would take long."""
    (cwd / grading_work.OUT).mkdir()
    (cwd / grading_work.OUT / "runs.csv").write_text(
        "team,network,outcome,fault,moves,lost,run\namber,ring:5,solved,,7,0,0\n"
    )
    polls: Iterator[Any] = iter([None] * LOOKS)
    return mock.Mock(returncode=0, poll=lambda: next(polls, 0))
