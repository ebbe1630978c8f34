"""Asking for matches: what a team may ask for, and why it is refused."""
from typing import Dict, List, NamedTuple, Optional

from django.conf import settings
from django.db import models, transaction
from django.utils.translation import gettext as _
from rest_framework.exceptions import APIException

from arena_lab.hall import machine
from arena_lab.hall.attempts.models import Attempt
from arena_lab.hall.attempts.attempt_work import forget
from arena_lab.hall.hall_files import Net
from arena_lab.hall.drafts.models import Draft, Trial
from arena_lab.hall.handins.models import Grading, HandIn
from arena_lab.hall.packing import most_on_disk
from arena_lab.hall.work_steps import step
from arena_lab.hall.teams.models import Switch, Team, note, today


class RequestRefusedError(APIException):
    """A request is refused: HTTP status, advice, and (if waiting helps) the seconds for
    the header Retry-After."""

    def __init__(self, status: int, text: str, wait: Optional[int] = None) -> None:
        super().__init__(text)
        self.status_code = status
        self.wait = wait


class Offer(NamedTuple):
    """A network that teams may request, and whether it is open."""

    net: Net
    is_open: bool


def open_networks() -> List[str]:
    """The networks that are open, in the order of the course's file."""
    closed_networks = set(
        Switch.objects.filter(is_open=False).values_list("network", flat=True)
    )
    return [name for name in settings.HALL.nets if name not in closed_networks]


def offers() -> List[Offer]:
    """All networks."""
    is_open = set(open_networks())
    return [Offer(net, net.name in is_open) for net in settings.HALL.nets.values()]


def ask(team: Team, network: str) -> Attempt:
    """An attempt that a team asks for, or RequestRefused."""
    if network not in open_networks():
        raise RequestRefusedError(404, _("there is no open network of this name"))
    make_room(team)
    with transaction.atomic():
        # two requests of a team at the same time are taken one after the other
        team = Team.objects.select_for_update().get(pk=team.pk)
        check_limits(team)
        attempt = Attempt.objects.create(team=team, network=network)
        note(team.name, f"asks for match {attempt.pk} on {network}")
    return attempt


def check_limits(team: Team) -> None:
    """Refuses what is more than a team may ask for."""
    limits = settings.HALL.limits
    attempts = Attempt.objects.filter(team=team)
    if (
        attempts.filter(state__in=(machine.WAITING, *machine.ACTIVE)).count()
        >= limits.at_once
    ):
        raise RequestRefusedError(
            429,
            _(
                "%(count)s matches of your team wait or run already: wait for one, or close it"
            )
            % {"count": limits.at_once},
        )
    if attempts.filter(asked__gte=today()).count() >= limits.a_day:
        raise RequestRefusedError(
            429,
            _("your team has asked for %(count)s matches today")
            % {"count": limits.a_day},
        )


def make_room(team: Team, extra: int = 0) -> None:
    """Removes the oldest files of practice of a team that is to get more than it may
    have; refuses if that is not enough, and says what fills its space."""
    limit = bytes_of(team)
    disk_used = own_bytes(team) + extra
    old = Attempt.objects.filter(team=team, size__gt=0, state=machine.OVER).order_by(
        "pk"
    )
    while disk_used > limit:
        attempt: Optional[Attempt] = old.first()
        if attempt is None:
            space = space_of(team)
            match_bytes = space["matches"] + space["hand_ins"] + space["gradings"]
            text = _(
                "your team has %(count)s MB: trials take %(trials)s, drafts %(drafts)s, matches and hand-ins "
                "%(kept)s. Delete trials, or ask your teacher"
            )
            sizes = {
                "count": limit >> 20,
                "trials": megabytes(space["trials"]),
                "drafts": megabytes(space["drafts"]),
                "kept": megabytes(match_bytes),
            }
            raise RequestRefusedError(429, text % sizes)
        disk_used -= attempt.size
        forget(attempt)


def bytes_of(team: Team) -> int:
    """Returns how many bytes all files of a team may have."""
    limit = settings.HALL.limits.disk if team.disk is None else team.disk
    return int(limit << 20)


def megabytes(size: int) -> str:
    return f"{size / (1 << 20):.1f}"


def space_of(team: Team) -> Dict[str, int]:
    """The bytes that a team's files take of the disk, by their kinds."""
    kinds = {
        "matches": Attempt.objects.filter(team=team),
        "hand_ins": HandIn.objects.filter(team=team),
        "gradings": Grading.objects.filter(hand_in__team=team),
        "drafts": Draft.objects.filter(team=team),
        "trials": Trial.objects.filter(team=team),
    }
    space = {
        name: rows.aggregate(all=models.Sum("size"))["all"] or 0
        for name, rows in kinds.items()
    }
    files = kinds["hand_ins"].aggregate(all=models.Sum("files"))["all"] or 0
    return {**space, "hand_ins": most_on_disk(space["hand_ins"], files)}


def own_bytes(team: Team) -> int:
    """The bytes of all files of a team."""
    return sum(space_of(team).values())


def close(attempt: Attempt) -> bool:
    """Closes the match of an attempt as it stands, or takes back what has not begun;
    gives whether there was anything to do."""
    only = models.Q(state__in=(machine.WAITING, machine.HELD))
    if step(attempt, machine.CANCEL, "", only):
        return True
    return bool(
        Attempt.objects.filter(pk=attempt.pk, state=machine.RUNNING).update(
            closing=True
        )
    )
