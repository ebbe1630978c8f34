"""Work as the table of the hall's machine has it, without a database."""
from typing import Dict, List, NamedTuple, Optional

from arena_lab.hall.machine import (
    ACTIVE,
    BY_HOLDER,
    CLAIM,
    ENDED,
    TABLE,
    WAITING,
    steps_of,
)

STATES = sorted({WAITING, *ACTIVE, *ENDED})
EVENTS = sorted({row.event for row in TABLE})


class JobState(NamedTuple):
    """A piece of work as the machine sees it: its state, and who holds it."""

    state: str = WAITING
    holder: str = ""


def after(work: JobState, event: str, holder: str = "") -> Optional[JobState]:
    """The work after an event, or None if the event changes nothing. A claim names the
    new holder."""
    if event in BY_HOLDER and holder != work.holder:
        return None
    for step in steps_of(event):
        if step.state == work.state:
            record = (
                holder
                if event == CLAIM
                else work.holder
                if step.after in ACTIVE
                else ""
            )
            return JobState(step.after, record)
    return None


def rows() -> Dict[str, List[str]]:
    """Returns the transition table as text: the events of each state with their
    targets."""
    return {
        state: [f"{step.event}: {step.after}" for step in TABLE if step.state == state]
        for state in STATES
    }
