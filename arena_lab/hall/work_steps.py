"""Steps of the machine (arena_lab/hall/machine.py) in the database. Each is one UPDATE
that names the state it leaves."""
import contextlib
import math
import os
import pathlib
import secrets
import shutil
import threading
import time
from typing import Any, Callable, Dict, Iterator, NamedTuple, Optional, Set, Tuple

from django.conf import settings
from django.db import OperationalError, connection, models, transaction
from django.utils import timezone
from django.utils.translation import gettext_lazy as _

from arena_lab.hall import machine
from arena_lab.hall.place import log_line
from arena_lab.hall.teams.models import note
from arena_lab.support.faults import ArenaError

# how many seconds a worker may be silent, and how often it says that it is there
LEASE = float(os.environ.get("ARENA_HALL_LEASE", "30"))
RENEWAL_SECONDS = LEASE / 5
# machine faults after which the teacher is informed, and maximal seconds before work
# restarts
MAX_ATTEMPTS = 3
LONGEST = 600.0
# seconds between two looks at what does the work
LOOK = 0.2
# set when this process must end: its work is given up, and the next process repeats it
STOP_EVENT = threading.Event()
REPEATED_TEXT = _(
    "the hall was stopped meanwhile: it is done again, a match with other keys"
)
MACHINE = _("the machine has a fault: it is done again, a match with other keys")


def remove_folder(instance: Any, **_given: Any) -> None:
    """Removes the files of a row that is deleted, once the database has deleted it."""
    folder = instance.folder
    transaction.on_commit(lambda: shutil.rmtree(folder, ignore_errors=True))


class Work(models.Model):
    """A piece of work that a worker does, and its state."""

    state = models.CharField(max_length=10, default=machine.WAITING, db_index=True)
    runs = models.PositiveIntegerField(default=0)
    # how often the machine had a fault, and how far the workers have counted that hold it
    faults = models.PositiveIntegerField(default=0)
    beats = models.PositiveIntegerField(default=0)
    holder = models.CharField(max_length=40, blank=True, default="")
    asked = models.DateTimeField(default=timezone.now)
    begun = models.DateTimeField(null=True, blank=True)
    ended = models.DateTimeField(null=True, blank=True)
    fault = models.CharField(max_length=300, blank=True, default="")

    class Meta:
        abstract = True

    @property
    def is_over(self) -> bool:
        return bool(self.state == machine.OVER)


class StoredWork(Work):
    """Work that stores files, in a folder below the common folder of its kind."""

    FOLDERS = ""
    # bytes of its files, results included
    size = models.BigIntegerField(default=0)

    class Meta:
        abstract = True

    @property
    def folder(self) -> pathlib.Path:
        return pathlib.Path(settings.PLACE.folder) / self.FOLDERS / str(self.pk)


def step(
    work: Work,
    event: str,
    holder: str = "",
    only: Optional[models.Q] = None,
    **changes: Any,
) -> bool:
    """Takes a step, whole or not at all; gives whether it was taken."""
    rows = type(work).objects.filter(only or models.Q(), pk=work.pk)
    if event in machine.BY_HOLDER:
        rows = rows.filter(holder=holder)
    for row in machine.steps_of(event):
        if rows.filter(state=row.state).update(
            **{**step_columns(row, holder), **changes}
        ):
            work.refresh_from_db()
            # meanwhile it may have been silent for long, and the row be another's
            return row.after not in machine.ACTIVE or work.holder == holder
    return False


def step_columns(row: machine.Transition, holder: str) -> Dict[str, Any]:
    """Returns the changes of a step to the columns that all work has."""
    columns: Dict[str, Any] = {"state": row.after, "beats": models.F("beats") + 1}
    if row.event == machine.CLAIM:
        columns.update(holder=holder)
    elif row.after not in machine.ACTIVE:
        columns.update(holder="")
    if row.event == machine.BEGIN:
        columns.update(runs=models.F("runs") + 1, begun=timezone.now(), fault="")
    if row.event == machine.LOSE:
        columns.update(faults=models.F("faults") + 1)
    if row.after in machine.ENDED:
        columns.update(ended=timezone.now(), fault="")
    return columns


def claim_work(work: Work, worker: str = "") -> Optional[str]:
    """Claims work that waits for a worker; gives the holder, whose name begins by that of
    the worker, or nothing if another was faster."""
    holder = f"{worker}{secrets.token_hex(16)}"
    return holder if step(work, machine.CLAIM, holder) else None


def lose(work: Work, only: models.Q, why: str) -> bool:
    """Records a machine fault and queues the work again; the teacher is informed about
    work that fails repeatedly."""
    is_lost = step(work, machine.LOSE, "", only, fault=why[:300])
    if is_lost and work.faults == MAX_ATTEMPTS:
        note(
            "hall",
            f"{type(work).__name__} {work.pk}: {MAX_ATTEMPTS} faults of the machine",
        )
        log_line(
            f"{type(work).__name__} {work.pk}: {MAX_ATTEMPTS} faults, and is begun again: {why}"
        )
    return is_lost


def pause(faults: int) -> float:
    """Returns how many seconds pass before work with this many faults is begun
    again."""
    return min(LONGEST, 4.0 ** min(faults - 1, 9)) if faults else 0.0


class Watch:
    """The last observed state of one kind of work, and since when it stands still by a
    monotonic clock."""

    def __init__(self, kind: Any) -> None:
        self._kind = kind
        self._seen: Optional[Dict[int, Tuple[int, float]]] = None

    def look(self) -> Set[int]:
        """Notes which work is lost to a silent worker; gives the numbers of the work
        that is not to begin yet. What waits at the first look has waited for a
        start."""
        now = time.monotonic()
        before = {} if self._seen is None else self._seen
        new = -math.inf if self._seen is None else now
        self._seen = {}
        resting = set()
        # what waits after no fault may begin at any time: a long queue of that is not read
        rows = self._kind.objects.filter(
            models.Q(state__in=machine.ACTIVE)
            | models.Q(state=machine.WAITING, faults__gt=0)
        )
        for work in rows.only("state", "holder", "beats", "faults"):
            beats, since = before.get(work.pk, (work.beats, new))
            is_active = work.state in machine.ACTIVE
            since = now if beats != work.beats or is_active and since < 0 else since
            self._seen[work.pk] = work.beats, since
            if is_active and now - since > LEASE:
                lose(work, models.Q(beats=work.beats), str(MACHINE))
            if is_active or now - since < pause(work.faults):
                resting.add(work.pk)
        return resting


class WorkerStoppedError(Exception):
    """This process must end."""


class WorkLostError(Exception):
    """The worker does not hold the work any more: it has given it up, or another worker
    holds it."""


class Lease:
    """The hold that a worker has on the work that it does, as long as it counts on, every
    so many seconds."""

    def __init__(
        self, work: Work, holder: str, renewal_time: float = RENEWAL_SECONDS
    ) -> None:
        self._work = work
        self._holder = holder
        self._every = renewal_time
        self._renewed = time.monotonic()

    def renew(self) -> None:
        if not step(self._work, machine.RENEW, self._holder):
            raise WorkLostError
        self._renewed = time.monotonic()

    def wait(self, seconds: float = LOOK) -> None:
        """Lets a moment pass, and counts on in time. A database that does not answer is
        asked again, as long as the lease holds."""
        time.sleep(seconds)
        silent = time.monotonic() - self._renewed
        if STOP_EVENT.is_set():
            raise WorkerStoppedError
        if silent > self._every:
            try:
                self.renew()
            except OperationalError:
                if silent > LEASE:
                    raise WorkLostError from None
            finally:
                if not connection.in_atomic_block:
                    connection.close()


@contextlib.contextmanager
def begin_work(
    kind: Any, number: int, holder: str, *related_names: str
) -> Iterator[Any]:
    """Starts work as its holder, and yields it; yields None if the work has another
    holder. Exceptions are recorded, and a machine fault queues the work again."""
    work = kind.objects.filter(pk=number).select_related(*related_names).first()
    if work is None or not step(work, machine.BEGIN, holder):
        yield None
        return
    try:
        yield work
    except WorkLostError:
        pass
    except WorkerStoppedError:
        lose(work, models.Q(holder=holder), str(REPEATED_TEXT))
    except (machine.MachineFaultError, OSError) as fault:
        # the text may contain file names, which teams must not see
        log_line(f"{type(work).__name__} {work.pk}: {fault}")
        lose(work, models.Q(holder=holder), str(MACHINE))
    except ArenaError as fault:
        step(work, machine.FAIL, holder, fault=str(fault)[:300])


class Stages(NamedTuple):
    """How work is done in a folder: it is prepared there, runs, and its files are put
    in their place."""

    prepare: Callable[[Any, pathlib.Path], None]
    run: Callable[[Any, str, pathlib.Path], None]
    finish: Callable[[Any, str, pathlib.Path], None]


def do_in_folder(
    kind: Any, number: int, holder: str, stages: Stages, *related_names: str
) -> None:
    """Does the work of this number, if this holder holds it."""
    with begin_work(kind, number, holder, *related_names) as work:
        if work is None:
            return
        # a worker that comes back too late finds the files of no other
        folder = work.folder.with_name(f"{work.folder.name}.{holder}")
        try:
            stages.prepare(work, folder)
            stages.run(work, holder, folder)
            stages.finish(work, holder, folder)
        finally:
            shutil.rmtree(folder, ignore_errors=True)
