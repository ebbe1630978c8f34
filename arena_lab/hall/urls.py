"""The addresses of the hall."""
import errno
import importlib
import pathlib
import sys
from typing import Any

from django.conf import settings
from django.contrib import admin
from django.db import OperationalError
from django.http import Http404, HttpResponse, JsonResponse
from django.urls import include, path, re_path, register_converter
from django.urls.converters import IntConverter, SlugConverter
from django.utils import timezone
from django.utils.translation import gettext as _
from django.views.defaults import server_error

from arena_lab.hall.attempts import views as attempts
from arena_lab.hall.attempts.api import Attempts, Networks
from arena_lab.hall.attempts.models import Attempt
from arena_lab.hall.drafts import views as drafts
from arena_lab.hall.drafts.api import Drafts, Space, Trials
from arena_lab.hall.drafts.models import Trial
from arena_lab.hall.handins import views as handins
from arena_lab.hall.handins.api import HandIns
from arena_lab.hall.handins.models import Grading
from arena_lab.hall.machine import ACTIVE, WAITING
from arena_lab.hall.shares import count_alive
from arena_lab.hall.standings import views as standings
from arena_lab.hall.teams import views as teams
from arena_lab.hall.teams.guards import refusal

OPENAPI = pathlib.Path(__file__).resolve().parent / "openapi.json"


def openapi(request: Any) -> HttpResponse:
    """Sends the OpenAPI description of the REST interface."""
    return HttpResponse(OPENAPI.read_bytes(), content_type="application/json")


class Number(IntConverter):
    """A number that a database takes."""

    regex = "[0-9]{1,9}"


class Language(SlugConverter):
    """The name of a kit."""

    regex = "[a-z0-9-]{1,40}"


register_converter(Number, "number")
register_converter(Language, "language")


def no_icon(request: Any) -> HttpResponse:
    """The icon of Django's own pages, which name none: there is none."""
    return HttpResponse(status=204)


def health(request: Any) -> JsonResponse:
    """For whoever watches the hall: how much waits, and for how many seconds the oldest
    of that; how many matches run, and how many workers are alive. How long a program is
    graded is nobody's business, as those that fail take long. Status 503 means that the
    database does not answer or no worker is alive."""
    waiting = [
        time
        for kind in (Attempt, Grading, Trial)
        for time in kind.objects.filter(state=WAITING).values_list("asked", flat=True)
    ]
    now = timezone.now()
    workers = count_alive()
    return JsonResponse(
        {
            "waiting": len(waiting),
            "oldest": int((now - min(waiting, default=now)).total_seconds()),
            "running": Attempt.objects.filter(state__in=ACTIVE).count(),
            "workers": workers,
        },
        status=200 if workers else 503,
    )


def sign_on(request: Any, view: str = "begin") -> HttpResponse:
    """The pages of [sign_on], whose modules need packages that other halls do without."""
    if settings.HALL.sign_on is None:
        raise Http404
    views = importlib.import_module("arena_lab.hall.sign_on.views")
    response: HttpResponse = getattr(views, view)(request)
    return response


def fault(request: Any) -> HttpResponse:
    """Handles exceptions of views. On a full disk nothing can be written, and the hall
    continues once there is space."""
    error = sys.exc_info()[1]
    if (
        isinstance(error, OperationalError)
        or isinstance(error, OSError)
        and error.errno == errno.ENOSPC
    ):
        return refusal(503, _("the hall cannot write this now: tell your teacher"))
    return server_error(request)


handler500 = fault
API = [
    path("openapi.json", openapi),
    path("networks", Networks.as_view()),
    path("matches", Attempts.as_view({"get": "list", "post": "create"})),
    path("matches/<number:number>", Attempts.as_view({"get": "retrieve"})),
    path("matches/<number:number>/close", Attempts.as_view({"post": "close"})),
    path(
        "matches/<number:number>/replays/<number:match>",
        Attempts.as_view({"get": "replay"}),
    ),
    path("hand-ins", HandIns.as_view({"get": "list", "post": "create"})),
    path("hand-ins/<number:number>", HandIns.as_view({"get": "retrieve"})),
    path("drafts", Drafts.as_view({"get": "list"})),
    path(
        "drafts/<language:language>",
        Drafts.as_view({"get": "retrieve", "put": "update", "delete": "destroy"}),
    ),
    path("drafts/<language:language>/hand-in", Drafts.as_view({"post": "hand_in"})),
    path("space", Space.as_view({"get": "retrieve"})),
    path(
        "trials", Trials.as_view({"get": "list", "post": "create", "delete": "clear"})
    ),
    path(
        "trials/<number:number>",
        Trials.as_view({"get": "retrieve", "delete": "destroy"}),
    ),
    path("trials/<number:number>/close", Trials.as_view({"post": "close"})),
    path("trials/<number:number>/files", Trials.as_view({"get": "files"})),
    path("trials/<number:number>/replay", Trials.as_view({"get": "replay"})),
    path("standings", standings.Standings.as_view()),
    path("contests", standings.Contests.as_view()),
    path("contests/<number:number>", standings.Standings.as_view()),
]
urlpatterns = [
    path("", standings.page),
    path("health", health),
    path("favicon.ico", no_icon),
    path("screen", standings.screen),
    path("contests/<number:number>", standings.page),
    path("contests/<number:number>/screen", standings.screen),
    path("login", teams.login),
    path("logout", teams.logout),
    path("sign-on", sign_on),
    path("sign-on/back", sign_on, {"view": "back"}),
    path("matches", attempts.list_attempts),
    path("matches/ask", attempts.ask),
    path("matches/<number:number>", attempts.show_attempt),
    path("matches/<number:number>/close", attempts.close),
    path("matches/<number:number>/<number:match>/replay", attempts.replay),
    path("matches/<number:number>/<number:match>/page", attempts.page),
    path("write", drafts.page),
    path("write/guest", drafts.begin_as_guest),
    path("class/<slug:word>", drafts.begin_by_class),
    re_path(r"^mine/(?P<secret>[0-9a-f]{64})$", drafts.begin_as_owner),
    path("write/trials/<number:number>/page", drafts.match_page),
    path("hand-ins", handins.list_hand_ins),
    path("hand-ins/take", handins.take),
    path("hand-ins/conditions.toml", handins.conditions),
    path("hand-ins/conditions-<number:number>.toml", handins.conditions),
    path("hand-ins/<number:number>", handins.show_hand_in),
    path("messages", teams.messages),
    re_path(
        r"^hand-ins/(?P<number>\d{1,9})/result/(?P<path>[\w./-]*)$", handins.result
    ),
    path("teacher/standings.csv", standings.export),
    path("teacher/contests/<number:number>.csv", standings.export),
    path("teacher/", admin.site.urls),
    path("language/", include("django.conf.urls.i18n")),
    path("api/", include(API)),
]
