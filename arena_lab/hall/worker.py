"""A worker claims queued work from the database and runs each piece in a thread.
Several workers, also on several machines, may run. A worker remembers only
since when work stands still, so killing and restarting it is safe at any moment."""
import collections
import contextlib
import math
import secrets
import signal
import threading
import time
from typing import Any, Callable, Collection, Dict, List, Set, Tuple

from django.conf import settings
from django.contrib.contenttypes.models import ContentType
from django.db import DatabaseError, connection, connections, transaction
from django.utils import timezone

from arena_lab.hall import machine
from arena_lab.hall.attempts import attempt_work
from arena_lab.hall.attempts.models import Attempt, Pages
from arena_lab.hall.drafts import trial_work as tried
from arena_lab.hall.drafts import trying
from arena_lab.hall.drafts.forking import FORK_SERVER
from arena_lab.hall.drafts.models import Trial
from arena_lab.hall.handins import grading_work
from arena_lab.hall.handins.models import Grading
from arena_lab.hall.handins.taking import grade_secretly
from arena_lab.hall.place import log_line
from arena_lab.hall.shares import Share, announce, leave, share_of
from arena_lab.hall.work_steps import RENEWAL_SECONDS, STOP_EVENT, Watch, claim_work

KINDS = (Attempt, Pages, Grading, Trial)
# seconds between two looks, and between two that ask for gradings by the secret draw
LOOK = 0.25
SECRETLY = 2.0

Job = Tuple[Callable[[int, str], None], Any]


def watches() -> List[Watch]:
    """Returns the initial watches of a new worker."""
    return [Watch(kind) for kind in KINDS]


def due(resting: Dict[Any, Set[int]], share: Share) -> List[Job]:
    """Returns the jobs that a worker may start now."""
    limits = settings.HALL.limits
    return [
        *(
            (attempt_work.play, attempt)
            for attempt in due_attempts(
                share.room(Attempt, limits.matches), resting[Attempt]
            )
        ),
        *(
            (attempt_work.make_pages, pages)
            for pages in Pages.objects.filter(state=machine.WAITING)
            .exclude(pk__in=resting[Pages])
            .order_by("pk")[: share.room(Pages, 2)]
        ),
        *(
            (grading_work.grade, grading_row)
            for grading_row in grading_work.due(
                share.room(Grading, limits.gradings), resting[Grading]
            )
        ),
        *((tried.play, trial) for trial in due_trials(resting[Trial], share)),
    ]


def due_trials(resting: Set[int], share: Share) -> List[Trial]:
    """The trials that may begin, beside gradings and matches. Those of a hall that has
    no editor any more end."""
    rules = settings.HALL.editor
    limit = 1 if rules is None else rules.trials
    return trying.due(limit, share.room(Trial, limit), resting)


def due_attempts(room: int, resting: Collection[int] = ()) -> List[Any]:
    """The attempts that may begin, fairly: first those of teams with the fewest that
    run, as many as there is room for, and none that rests."""
    if room <= 0:
        return []
    running = Attempt.objects.filter(state__in=machine.ACTIVE).order_by()
    busy = collections.Counter(running.values_list("team", flat=True))
    waiting = []
    for attempt in Attempt.objects.filter(state=machine.WAITING).order_by("pk"):
        if attempt.pk in resting:
            continue
        waiting.append((busy[attempt.team_id], attempt.pk, attempt))
        busy[attempt.team_id] += 1
    return [attempt for _, _, attempt in sorted(waiting)[:room]]


def claim(watches_list: List[Watch], name: str = "") -> List[Tuple[Job, str]]:
    """Claims the jobs that may begin within the share of the named worker; returns each
    with its holder. Workers lock a row that always exists (SQLite allows one writer
    anyway), so that no two of them count running work at the same time. A worker that
    must end meanwhile claims nothing."""
    with transaction.atomic():
        queue = ContentType.objects.filter(app_label="attempts", model="attempt")
        if queue.select_for_update(skip_locked=True).first() is None:
            return []
        if STOP_EVENT.is_set():
            return []
        resting = {kind: watch.look() for kind, watch in zip(KINDS, watches_list)}
        return [
            (job, holder)
            for job in due(resting, share_of(name))
            if (holder := claim_work(job[1], name))
        ]


def run(job: Job, holder: str) -> None:
    """Does a piece of work. What comes of it stands in the database."""
    does, work = job
    try:
        does(work.pk, holder)
    finally:
        connections.close_all()


def work(is_over: threading.Event) -> None:
    """Works until it is ended. Database errors are logged, and it tries again."""
    name = secrets.token_hex(4)
    last_asked = last_contact = -math.inf
    watches_list = watches()
    if settings.HALL.editor is not None:
        FORK_SERVER.begin()
    while not is_over.is_set():
        try:
            if time.monotonic() - last_contact > RENEWAL_SECONDS:
                announce(name)
                last_contact = time.monotonic()
            if time.monotonic() - last_asked > SECRETLY:
                grade_secretly(timezone.now())
                last_asked = time.monotonic()
            jobs = claim(watches_list, name)
        except (DatabaseError, OSError) as fault:
            log_line(f"worker: {fault}")
            connection.close()
            jobs = []
            is_over.wait(1)
        for job, holder in jobs:
            threading.Thread(target=run, args=(job, holder)).start()
        if not jobs:
            is_over.wait(LOOK)
    with contextlib.suppress(DatabaseError):
        leave(name)


def main(_: str) -> None:
    signal.signal(signal.SIGTERM, lambda *_: STOP_EVENT.set())
    work(STOP_EVENT)
