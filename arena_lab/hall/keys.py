"""Key sheets, the teacher's password, and teams of the course's file. Django has
begun."""
import csv
import pathlib
import secrets
from typing import Any, Iterable, List, Tuple

from django.contrib.auth import get_user_model
from django.db import transaction

from arena_lab.hall.hall_files import Hall
from arena_lab.hall.teams.models import Switch, Team, note

TEACHER = "teacher"
HEAD = ("team", "name", "token")

Sheet = List[Tuple[str, ...]]


def sync(hall: Hall) -> None:
    """Makes the teams and networks of the course's file that the database does not have
    yet."""
    for member in hall.teams:
        Team.objects.get_or_create(
            name=member.name, defaults={"display": member.display}
        )
    for name in hall.nets:
        Switch.objects.get_or_create(network=name)


def new_tokens(teams: Iterable[Team], who: str) -> Sheet:
    """Draws new tokens for teams; gives the rows of their sheets."""
    sheet: Sheet = []
    with transaction.atomic():
        for team in teams:
            sheet.append((team.name, str(team), team.new_token()))
            note(who, f"draws a token for {team.name}")
    return sheet


def draw_missing(path: pathlib.Path) -> int:
    """Draws tokens for the teams that have none, and writes them into a file of key
    sheets, both or neither; gives how many."""
    with transaction.atomic():
        sheet = new_tokens(list(Team.objects.filter(digest="", is_guest=False)), "hall")
        if sheet:
            write_sheet(path, sheet)
    return len(sheet)


def write_sheet(path: pathlib.Path, sheet: Sheet) -> None:
    """Appends rows to a file of key sheets, which nobody else may read."""
    is_new = not path.exists()
    path.touch(mode=0o600)
    with path.open("a", encoding="utf-8", newline="") as file:
        rows: Sheet = [HEAD, *sheet] if is_new else sheet
        csv.writer(file, lineterminator="\n").writerows(safe(rows))


def safe(rows: Iterable[Iterable[Any]]) -> List[List[Any]]:
    """The rows of a table in which no program takes a text for a formula."""
    return [
        [
            f"'{cell}"
            if isinstance(cell, str) and cell[:1] in ("=", "+", "-", "@", "\t", "\r")
            else cell
            for cell in row
        ]
        for row in rows
    ]


def set_password(password: str = "") -> str:
    """Sets the teacher's password, or draws one; gives it."""
    user, _ = get_user_model().objects.get_or_create(
        username=TEACHER, defaults={"is_staff": True, "is_superuser": True}
    )
    password = password or secrets.token_urlsafe(12)
    user.set_password(password)
    user.save()
    note("hall", "the teacher's password is set")
    return password


def has_password() -> bool:
    return bool(get_user_model().objects.filter(username=TEACHER).exists())
