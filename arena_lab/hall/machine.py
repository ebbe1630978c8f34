"""The states of a piece of work (an attempt, a page, a grading), and each way from one
to the next.

The database has the state, and the database is the truth: whoever acts on a piece of
work does it by one step of this table, which happens wholly or not at all. So a process
may be killed before or after any step. A worker holds its work as long as it counts on
in the row. Once it has been silent for long, others note that the work is lost to it.
A worker that comes back too late names a holder that is not the holder any more, and
changes nothing.

Faults of the machine (a stop, a kill, silence, a full disk, no cell) end no work: it is
begun again, without end. What fails by itself would fail again, and is not.
"""
from typing import FrozenSet, List, NamedTuple, Tuple

from arena_lab.support.faults import ArenaError

WAITING = "waiting"
HELD = "held"
RUNNING = "running"
OVER = "over"
LOST = "lost"
CANCELLED = "cancelled"
# final states
ENDED: FrozenSet[str] = frozenset((OVER, LOST, CANCELLED))
ACTIVE: FrozenSet[str] = frozenset((HELD, RUNNING))

# a worker claims the work, begins, counts on, and ends it or fails; the machine has a
# fault, or the worker is silent; a team or the teacher gives it up
CLAIM = "claim"
BEGIN = "begin"
RENEW = "renew"
FINISH = "finish"
FAIL = "fail"
LOSE = "lose"
CANCEL = "cancel"
# steps of a worker, which must hold the work
BY_HOLDER: FrozenSet[str] = frozenset((BEGIN, RENEW, FINISH, FAIL))


class MachineFaultError(ArenaError):
    """A run came to nothing by a fault of the machine, as another may not: it may find
    another port, or a machine that has room. Says why."""


class Transition(NamedTuple):
    """A row of the table: from which state an event leads where."""

    state: str
    event: str
    after: str


TABLE: Tuple[Transition, ...] = (
    Transition(WAITING, CLAIM, HELD),
    Transition(HELD, BEGIN, RUNNING),
    Transition(HELD, LOSE, WAITING),
    Transition(RUNNING, RENEW, RUNNING),
    Transition(RUNNING, FINISH, OVER),
    Transition(RUNNING, FAIL, LOST),
    Transition(RUNNING, LOSE, WAITING),
    Transition(WAITING, CANCEL, CANCELLED),
    Transition(HELD, CANCEL, CANCELLED),
    Transition(RUNNING, CANCEL, CANCELLED),
)


def steps_of(event: str) -> List[Transition]:
    """The rows of an event."""
    return [step for step in TABLE if step.event == event]
