"""Guests: who has no token may write and try for a day, and hand in nothing. A guest is a
hidden row among the teams, whom no page but that on which one writes knows."""
import datetime
import secrets

from django.conf import settings
from django.db import transaction
from django.db.models import Max
from django.utils import timezone
from django.utils.translation import gettext as _

from arena_lab.hall.attempts.asking import RequestRefusedError
from arena_lab.hall.drafts.models import Draft, Trial
from arena_lab.hall.drafts.writing import draft_of
from arena_lab.hall.teams.guards import Buckets
from arena_lab.hall.teams.models import Team, note

# a guest that has written nothing for so long is gone
STAYS = datetime.timedelta(days=1)
# the name of who writes on a machine of their own, and is never gone
OWNER = "mine"
# MB of a guest
DISK = 8
# after this time without a change or a trial a guest makes room for another
IDLE = datetime.timedelta(hours=1)
# with what the names of guests begin: of those who come by the class's link, and others
CLASS = "class"
STRANGER = "guest"
# guests admitted per site and day: half of all places, so that one site cannot exclude
# the others
arrivals = Buckets(STAYS.total_seconds())


def admit(site: str) -> Team:
    """Admits a new guest, who comes from a site."""
    rules = settings.HALL.editor
    limit = 0 if rules is None else rules.guests
    if limit == 0:
        raise RequestRefusedError(404, _("there are no guests here"))
    if arrivals.is_empty(site, max(1, limit // 2)):
        raise too_many()
    team = add_guest(STRANGER, limit)
    arrivals.wait(site, max(1, limit // 2))
    return team


def admit_by_class(word: str) -> Team:
    """Admits a guest who knows the word of the class, wherever the guest comes from."""
    if not is_of_class(word):
        raise RequestRefusedError(404, _("there are no guests here"))
    return add_guest(CLASS, settings.HALL.editor.class_guests)


def is_of_class(word: str) -> bool:
    """Returns whether the hall's class has this word."""
    rules = settings.HALL.editor
    expectation = "" if rules is None else rules.class_word
    return bool(expectation) and secrets.compare_digest(
        word.encode(), expectation.encode()
    )


def add_guest(kind: str, limit: int) -> Team:
    """Adds a guest of a kind, of whom there are at most so many."""
    with transaction.atomic():
        remove_gone()
        make_place(kind, limit)
        team = Team.objects.create(
            name=f"{kind}-{secrets.token_hex(5)}",
            display=_("guest"),
            hidden=True,
            is_guest=True,
            disk=DISK,
        )
        # by its time it is known how long the guest has written nothing
        draft_of(team, settings.HALL.editor.languages[0]).save()
        note(team.name, "begins as a guest")
    return team


def make_place(kind: str, limit: int) -> None:
    """Removes the guest that has been idle longest, if all places are taken; refuses if
    all have done something lately."""
    guests = Team.objects.filter(is_guest=True, name__startswith=f"{kind}-")
    if guests.count() < limit:
        return
    since = timezone.now() - IDLE
    busy = Trial.objects.filter(asked__gte=since).values("team")
    last = guests.exclude(pk__in=busy).annotate(last=Max("drafts__at"))
    idle = last.filter(last__lt=since).order_by("last").first()
    if idle is None:
        raise too_many()
    idle.delete()


def too_many() -> RequestRefusedError:
    return RequestRefusedError(429, _("there are too many guests: come again later"))


def owner() -> Team:
    """Returns who writes on a machine of their own, by `arena-lab try`."""
    values = {"display": _("you"), "hidden": True, "is_guest": True}
    return Team.objects.get_or_create(name=OWNER, defaults=values)[0]


def remove_gone() -> None:
    """Removes guests that have written nothing for long."""
    recent_drafts = Draft.objects.filter(at__gte=timezone.now() - STAYS)
    strangers = Team.objects.filter(is_guest=True).exclude(name=OWNER)
    strangers.exclude(pk__in=recent_drafts.values("team")).delete()
