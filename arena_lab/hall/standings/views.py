"""Pages of the standings, for teams and for the projector."""
import csv
import io
from typing import Any, List, Optional

from django.conf import settings
from django.contrib.admin.views.decorators import staff_member_required
from django.contrib.auth.decorators import permission_required
from django.core.cache import cache
from django.http import Http404, HttpResponse
from django.shortcuts import get_object_or_404, redirect, render
from django.utils import timezone
from rest_framework.permissions import BasePermission
from rest_framework.response import Response
from rest_framework.views import APIView

from arena_lab.hall.attempts.shown import time_of
from arena_lab.hall.handins.models import Contest
from arena_lab.hall.handins.windows import Window, window_of
from arena_lab.hall.keys import safe
from arena_lab.hall.standings import team_tables


# for how long the tables that teams see are kept
SECONDS = 2
SEES_ALL = "handins.view_grading"


def may_see(request: Any) -> bool:
    """Returns whether the request may read the standings."""
    return bool(
        settings.HALL.public or request.team is not None or request.user.is_staff
    )


def is_teacher(request: Any) -> bool:
    """Returns whether one may see what a freeze hides."""
    return bool(request.user.is_staff and request.user.has_perm(SEES_ALL))


def open_window(number: Optional[int]) -> Optional[Window]:
    """Returns the window of a started contest, or of the course for None."""
    return window_of(
        None
        if number is None
        else get_object_or_404(Contest, pk=number, start__lte=timezone.now())
    )


def visible_tables(
    window: Optional[Window], for_teacher: bool
) -> List[team_tables.StandingsTable]:
    """The tables of a window. Those of teams are made once in a while, however often
    they are asked for."""
    if window is None or for_teacher:
        return [] if window is None else team_tables.tables(window, True)
    name = f"tables-{0 if window.contest is None else window.contest.pk}"
    standings_tables: List[team_tables.StandingsTable] = cache.get_or_set(
        name, lambda: team_tables.tables(window, False), SECONDS
    )
    return standings_tables


def page(request: Any, number: Optional[int] = None) -> HttpResponse:
    """Shows the standings of the course or of a contest; redirects to the login page if
    they are private."""
    if not may_see(request):
        return redirect("/login")
    window = open_window(number)
    contests = (
        Contest.objects.filter(start__lte=timezone.now()) if number is None else []
    )
    return render(
        request,
        "standings.html",
        {
            "tables": visible_tables(window, is_teacher(request)),
            "is_teacher": is_teacher(request),
            "contests": contests,
            "contest": window and window.contest,
        },
    )


def screen(request: Any, number: Optional[int] = None) -> HttpResponse:
    """The standings on a projector. Everybody sees it, so it hides what the freeze
    hides."""
    if not may_see(request):
        return redirect("/login")
    window = open_window(number)
    return render(
        request,
        "screen.html",
        {"tables": visible_tables(window, False), "contest": window and window.contest},
    )


def as_rows(table: team_tables.StandingsTable) -> List[List[Any]]:
    """The standings as a table of texts."""
    rows: List[List[Any]] = [
        [
            "place",
            "team",
            "name",
            "solved",
            "matches",
            "moves",
            "lost",
            *(
                f"{name}: {what}"
                for name in table.networks
                for what in ("solved", "matches")
            ),
        ]
    ]
    for row in table.rows:
        cells = [
            cell[what] if cell else ""
            for cell in row["cells"]
            for what in ("solved", "matches")
        ]
        rank = row["place"] if row["graded"] else "not graded"
        rank = "absent" if row["absent"] else rank
        rows.append(
            [
                rank,
                *(
                    row[name]
                    for name in ("team", "name", "solved", "matches", "moves", "lost")
                ),
                *cells,
            ]
        )
    return rows


def as_csv(rows: List[List[Any]]) -> str:
    buffer = io.StringIO()
    csv.writer(buffer).writerows(safe(rows))
    return buffer.getvalue()


def attachment(text: str, name: str) -> HttpResponse:
    """A table that a browser keeps as a file."""
    response = HttpResponse(text, content_type="text/csv; charset=utf-8")
    response["Content-Disposition"] = f'attachment; filename="{name}"'
    return response


@staff_member_required
@permission_required(SEES_ALL, raise_exception=True)
def export(request: Any, number: Optional[int] = None) -> HttpResponse:
    """The first table that the teacher sees, for a gradebook."""
    standings_tables = visible_tables(open_window(number), True)
    if not standings_tables:
        raise Http404
    return attachment(as_csv(as_rows(standings_tables[0])), "standings.csv")


class MaySee(BasePermission):
    """Whether one may see the standings by REST."""

    def has_permission(self, request: Any, view: Any) -> bool:
        return bool(settings.HALL.public or request.user is not None)


class Standings(APIView):
    """Lists the standings of the course or of a contest."""

    permission_classes = [MaySee]

    def get(self, request: Any, number: Optional[int] = None) -> Response:
        standings_tables = visible_tables(open_window(number), False)
        table = (
            standings_tables[0]
            if standings_tables
            else team_tables.StandingsTable([], [], False, None)
        )
        return Response(
            {
                "networks": table.networks,
                "teams": table.rows,
                "secret": table.is_secret,
                "frozen": time_of(table.frozen),
            }
        )


class Contests(APIView):
    """Lists all contests; the networks of a contest are included once it has begun."""

    permission_classes = [MaySee]

    def get(self, request: Any) -> Response:
        now = timezone.now()
        return Response(
            [
                {
                    "id": contest.pk,
                    "name": contest.name,
                    "start": time_of(contest.start),
                    "end": time_of(contest.end),
                    "networks": contest.networks if contest.start <= now else [],
                }
                for contest in Contest.objects.all()
            ]
        )
