"""Which team or teacher a person is whom the provider names."""
import hashlib
import re
import secrets
import unicodedata
from typing import Any, Dict, Optional

from django.conf import settings
from django.contrib.auth import get_user_model
from django.contrib.contenttypes.models import ContentType
from django.db import transaction
from django.utils.translation import gettext as _

from arena_lab.hall.sign_on.rules import EMAIL, VERIFIED
from arena_lab.hall.teams.models import Team, note

# characters of a new team's name before those that are drawn, and of those
READABLE = 9
DRAWN_BYTES = 3
# prefix of the user names of teachers who sign in: no user with a password has it
TEACHER = "sign-on: "
# characters of a person's name, with which a user's name has 150 at most
MAX_NAME = 120


class UnknownPersonError(Exception):
    """The hall takes nobody of these claims; says whom to ask."""


def person_of(claims: Dict[str, Any]) -> str:
    """Returns what names a person. An address has to be verified, since some providers
    let one write any address."""
    claim = settings.HALL.sign_on.claim
    name = claims.get(claim)
    if not isinstance(name, str) or not name.strip() or len(name) > MAX_NAME:
        raise UnknownPersonError(
            _("the provider does not say who you are: tell your teacher")
        )
    if claim == EMAIL and not is_verified(claims):
        raise UnknownPersonError(
            _("your address is not verified: verify it with the provider first")
        )
    return plain_name(name)


def is_verified(claims: Dict[str, Any]) -> bool:
    """Returns whether the provider has verified the address; some write true as text."""
    word = claims.get(VERIFIED)
    return word is True or word == "true"


def plain_name(name: str) -> str:
    """Returns a name as it is compared. Providers write addresses in any case."""
    is_address = settings.HALL.sign_on.claim == EMAIL
    return name.strip().lower() if is_address else name.strip()


def values_of(claims: Dict[str, Any], claim: str) -> Any:
    """Returns the texts of a claim, whose value is a text or a list."""
    values = claims.get(claim) if claim else None
    values = values if isinstance(values, list) else [values]
    return [value for value in values if isinstance(value, str)]


def is_teacher(claims: Dict[str, Any]) -> bool:
    rules = settings.HALL.sign_on
    return bool(rules.teacher_value) and rules.teacher_value in values_of(
        claims, rules.teacher_claim
    )


def teacher_of(person: str) -> Any:
    """Returns the user of a teacher, who has no password."""
    users = get_user_model().objects
    user, _created = users.get_or_create(username=f"{TEACHER}{person}")
    user.is_staff = user.is_superuser = user.is_active = True
    user.set_unusable_password()
    user.save()
    return user


def forget_teacher(person: str) -> None:
    """Takes the rights of a teacher from a person whose claim has gone."""
    users = get_user_model().objects.filter(username=f"{TEACHER}{person}")
    users.update(is_staff=False, is_superuser=False, is_active=False)


def team_of_person(person: str, claims: Dict[str, Any]) -> Team:
    """Returns the team of a person: by the lists of the course's file, by a claim, or one
    that the first sign-in makes."""
    rules = settings.HALL.sign_on
    names = [
        team.name
        for team in settings.HALL.teams
        if person in map(plain_name, team.members)
    ]
    names = names or values_of(claims, rules.team_claim)
    teams = list(Team.objects.filter(name__in=names, is_guest=False)[:2])
    if len(teams) == 1:
        return teams[0]
    identity = hashlib.sha256(f"{rules.issuer} {person}".encode()).hexdigest()
    team = Team.objects.filter(identity=identity).first()
    if team is None and not names:
        team = make_team(person, identity, claims)
    if team is None:
        raise UnknownPersonError(
            _("you are in no team of this course, or in several: tell your teacher")
        )
    return team


def make_team(person: str, identity: str, claims: Dict[str, Any]) -> Optional[Team]:
    """Makes a team of a person's own, if the course allows one more."""
    with transaction.atomic():
        # a lock on an existing row puts concurrent sign-ins in a sequence
        kinds = ContentType.objects.filter(app_label="teams", model="team")
        kinds.select_for_update().first()
        if Team.objects.filter(identity=identity).exists():
            return Team.objects.get(identity=identity)
        if (
            Team.objects.exclude(identity=None).count()
            >= settings.HALL.sign_on.new_teams
        ):
            return None
        readable = re.sub("[^a-z0-9]+", "-", person.partition("@")[0]).strip("-")
        name = f"{readable[:READABLE] or 'p'}-{secrets.token_hex(DRAWN_BYTES)}"
        team = Team.objects.create(
            name=name, identity=identity, display=display_of(claims) or name
        )
        note("hall", f"makes the team {name}")
        return team


def display_of(claims: Dict[str, Any]) -> str:
    """Returns the name of a person for pages, without characters that hide or turn
    text."""
    name = claims.get("name")
    text = name if isinstance(name, str) else ""
    plain = (char for char in text if unicodedata.category(char)[0] != "C")
    return "".join(plain).strip()[:80]
