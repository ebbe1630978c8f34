"""Logging in: teams by the token of their key sheet, by a page or by each request; the
teacher by a password."""
import secrets
from typing import Any, Callable, Dict, Optional, Tuple

from django.conf import settings
from django.contrib.auth.backends import ModelBackend
from django.http import HttpRequest, HttpResponse
from django.utils.translation import gettext_lazy as _
from rest_framework import exceptions
from rest_framework.authentication import BaseAuthentication, SessionAuthentication
from rest_framework.permissions import BasePermission

from arena_lab.hall.place import LOGIN
from arena_lab.hall.teams import guards
from arena_lab.hall.teams.models import DOT, Team, team_of

WRONG = _("no team has this token")
OTHER = _("another team has logged in with this browser: log in again")
WAIT = _("too many wrong tries: wait some minutes")
SESSION_TEAM = "team"
SESSION_GENERATION = "generation"


def team_of_token(request: HttpRequest, token: str) -> Optional[Team]:
    """The team of a token, whose tries are limited by address."""
    name = token.partition(DOT)[0]
    if guards.has_tried_too_often(request, name):
        raise exceptions.Throttled(detail=WAIT)
    team = team_of(token.strip())
    if team is None:
        guards.was_wrong(request, name)
    return team


def log_in(request: Any, team: Team) -> None:
    """Starts a session for a team, and ends any previous session of the browser."""
    request.session.flush()
    request.session[SESSION_TEAM] = team.pk
    request.session[SESSION_GENERATION] = team.generation


def team_in(request: Any) -> Optional[Team]:
    """The team of a session, unless its token was drawn anew meanwhile."""
    number = request.session.get(SESSION_TEAM)
    team = Team.objects.filter(pk=number).first() if number is not None else None
    is_new = (
        team is not None and request.session.get(SESSION_GENERATION) == team.generation
    )
    return team if is_new else None


class Teams:
    """The middleware that says which team asks. A guest is no team: pages and requests
    that take guests too ask for the `writer`."""

    def __init__(self, answer: Callable[[Any], HttpResponse]) -> None:
        self._answer = answer

    def __call__(self, request: Any) -> HttpResponse:
        writer = request.writer = team_in(request)
        request.team = None if writer is None or writer.is_guest else writer
        if guards.token_in(request) is None:
            digest = guards.credential_of(request)
            if writer is not None:
                guards.known_teams.set(digest, writer.name)
            elif request.user.is_staff:
                guards.known_teams.set(digest, f"{guards.STAFF}{request.user.pk}")
            else:
                guards.known_teams.delete(digest)
        return self._answer(request)


class ByToken(BaseAuthentication):
    """`Authorization: Bearer TOKEN`, as programs ask."""

    def authenticate(self, request: Any) -> Optional[Tuple[Team, None]]:
        token = guards.token_in(request)
        if token is None:
            return None
        digest = guards.credential_of(request)
        # a token that was right costs no try, and is asked for anew each time
        team = (
            team_of(token)
            if guards.known_teams.get(digest)
            else team_of_token(request, token)
        )
        if team is None:
            guards.known_teams.delete(digest)
            raise exceptions.AuthenticationFailed(WRONG)
        guards.known_teams.set(digest, team.name)
        request._request.team = request._request.writer = team
        return team, None

    def authenticate_header(self, request: Any) -> str:
        return "Bearer"


class BySession(SessionAuthentication):
    """The session of a page, whose requests name its secret against forgeries."""

    # which attribute of a request says who asks
    who = "team"

    def authenticate(self, request: Any) -> Optional[Tuple[Team, None]]:
        team: Optional[Team] = getattr(request._request, self.who)
        if team is None:
            return None
        self.enforce_csrf(request)
        return team, None


class ByWriter(BySession):
    """Authenticates the session of a team or of a guest. A page that was opened before
    another team logged in names its own, and is refused."""

    who = "writer"

    def authenticate(self, request: Any) -> Optional[Tuple[Team, None]]:
        result = super().authenticate(request)
        writer = request.META.get("HTTP_X_WRITER")
        if result is not None and writer not in (None, result[0].name):
            raise exceptions.PermissionDenied(OTHER)
        return result


class IsTeam(BasePermission):
    """Whether a team asks."""

    def has_permission(self, request: Any, view: Any) -> bool:
        return isinstance(request.user, Team)


class Teachers(ModelBackend):
    """The teacher's password, whose tries are limited. Behind it may stand the word of
    a file of the hall, which its owner alone reads: then it is looked at, however often
    a stranger at the same address has tried."""

    def authenticate(
        self, request: Any, username: Any = None, password: Any = None, **options: Any
    ) -> Any:
        name = f"{guards.STAFF}{username}"
        if request is not None and guards.has_tried_too_often(request, name):
            password, _, word = str(password).rpartition(" ")
            hash_text = settings.PLACE.secret(LOGIN)
            if not secrets.compare_digest(word.encode(), hash_text.encode()):
                return None
        user = super().authenticate(
            request, username=username, password=password, **options
        )
        if user is None and request is not None:
            guards.was_wrong(request, name)
        return user


def page_context(request: Any) -> Dict[str, Any]:
    """Returns the template variables of all pages."""
    hall = settings.HALL
    return {
        "hall": hall,
        "team": getattr(request, "team", None),
        "writer": getattr(request, "writer", None),
        "takes_hand_ins": hall.hand_ins is not None,
        "has_editor": hall.editor is not None,
    }
