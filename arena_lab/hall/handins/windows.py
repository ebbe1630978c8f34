"""Windows: the times for hand-ins and the networks of their grading. The course has one
window, which ends at its deadline, and each contest has one."""
import datetime
from typing import Dict, List, NamedTuple, Optional

from django.conf import settings
from django.utils import timezone

from arena_lab.hall.handins.models import Contest, Extension, HandIn
from arena_lab.hall.teams.models import Team

Moment = Optional[datetime.datetime]


class Window(NamedTuple):
    """A window: the contest, or None for the course; the networks of a grading at once
    and of the last one, each by the word that names it to `grade`, with its name on
    pages; and when it begins, ends and freezes, if ever."""

    contest: Optional[Contest]
    public: Dict[str, str]
    secret: Dict[str, str]
    start: Moment
    end: Moment
    freeze: Moment

    def end_for(self, team: Team) -> Moment:
        """Returns the window's end for a team, which may have an extension."""
        return ends(self, [team])[team.pk]

    def has_begun(self) -> bool:
        return self.start is None or self.start <= timezone.now()


def window_of(contest: Optional[Contest]) -> Optional[Window]:
    """The window of a contest, or of the course if none is named; nothing if the hall
    takes no hand-ins."""
    rules = settings.HALL.hand_ins
    if rules is None:
        return None
    if contest is None:
        return Window(
            None,
            rules.networks,
            rules.secret,
            None,
            rules.deadline,
            settings.HALL.freeze,
        )
    nets = [
        settings.HALL.nets[name]
        for name in contest.networks
        if name in settings.HALL.nets
    ]
    names = {net.word: net.name for net in nets}
    return Window(contest, names, names, contest.start, contest.end, contest.freeze)


def windows() -> List[Window]:
    """Lists the windows of the course and of all contests."""
    all_windows = [window_of(None), *map(window_of, Contest.objects.all())]
    return [window for window in all_windows if window is not None]


def ends(window: Window, teams: List[Team]) -> Dict[int, Moment]:
    """Returns the window's end for each team."""
    order = Extension.objects.filter(contest=window.contest, team__in=teams).order_by(
        "pk"
    )
    return {
        **{team.pk: window.end for team in teams},
        **dict(order.values_list("team", "until")),
    }


def last_of_teams(window: Window) -> Dict[int, int]:
    """Returns for each team its last hand-in in a window."""
    return dict(
        HandIn.objects.filter(contest=window.contest)
        .order_by("pk")
        .values_list("team", "pk")
    )
