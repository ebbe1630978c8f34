"""Which workers are alive, and how much of the hall's work is the share of one. What a
course allows at a time is for all machines together; without shares the first worker to
look would take all of it."""
import datetime
import math
from typing import Any, NamedTuple

from django.db.models.functions import Now

from arena_lab.hall import machine
from arena_lab.hall.attempts.models import Worker
from arena_lab.hall.work_steps import LEASE

# after so many leases a silent worker is forgotten
FORGOTTEN = 100


def workers_within(seconds: float) -> Any:
    """Selects the workers that have announced themselves within so many seconds, by the
    clock of the database, which all machines share."""
    return Worker.objects.filter(
        contact__gt=Now() - datetime.timedelta(seconds=seconds)
    )


def announce(name: str) -> None:
    """Notes that a worker is alive."""
    Worker.objects.update_or_create(name=name, defaults={"contact": Now()})
    Worker.objects.exclude(pk__in=workers_within(FORGOTTEN * LEASE)).delete()


def leave(name: str) -> None:
    """Notes that a worker ends, whose share is for the others at once."""
    Worker.objects.filter(name=name).delete()


def count_alive() -> int:
    return int(workers_within(LEASE).count())


class Share(NamedTuple):
    """The share of a worker, whose name begins the names of holders, among the workers
    that are alive."""

    name: str
    workers: int

    def room(self, kind: Any, limit: int) -> int:
        """Returns how many more pieces of this kind of work the worker may claim, of
        which the hall does so many at a time."""
        active = kind.objects.filter(state__in=machine.ACTIVE).order_by()
        holders = list(active.values_list("holder", flat=True))
        own_count = sum(holder.startswith(self.name) for holder in holders)
        share = math.ceil(limit / max(1, self.workers))
        return max(0, min(limit - len(holders), share - own_count))


def share_of(name: str) -> Share:
    return Share(name, count_alive())
