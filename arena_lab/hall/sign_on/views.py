"""Pages that send a browser to the provider, and take what it brings back."""
import logging
import secrets
import time
from typing import Any

from authlib.common.errors import AuthlibBaseError
from django.conf import settings
from django.contrib.auth import login as log_in_user
from django.contrib.sessions.models import Session
from django.http import HttpResponse, HttpResponseRedirect
from django.shortcuts import redirect, render
from django.utils import timezone
from django.utils.translation import gettext as _
from django.views.decorators.http import require_GET
from requests import RequestException

from arena_lab.hall.sign_on import people
from arena_lab.hall.sign_on.provider import PROVIDER, Flow, ProviderError
from arena_lab.hall.teams import guards
from arena_lab.hall.teams.logins import log_in
from arena_lab.hall.teams.models import note
from arena_lab.hall.teams.views import Token
from arena_lab.support.faults import ArenaError

LOGGER = logging.getLogger(__name__)
SESSION_FLOW = "sign_on"
# seconds until a flow expires, and until a teacher's session does
FLOW_SECONDS = 600
TEACHER_SECONDS = 12 * 3600
# how often a minute one address has the hall ask the provider
A_MINUTE = 120
# characters of a code
MAX_CODE = 4_000
# faults of a provider that is silent, and faults of a token
SILENT = (ProviderError, RequestException, ArenaError)
INVALID = (AuthlibBaseError, ValueError, LookupError, TypeError, AttributeError)
BACKEND = "arena_lab.hall.teams.logins.Teachers"
questions = guards.Buckets(60)


def refuse(request: Any, text: str, status: int = 403) -> HttpResponse:
    """Shows why nobody is logged in, beside the other ways to log in."""
    context = {"form": Token(), "refusal": text}
    return render(request, "login.html", context, status=status)


def has_asked_too_often(request: Any) -> bool:
    return bool(questions.wait(guards.address_of(request), A_MINUTE))


def no_answer(request: Any, fault: Exception) -> HttpResponse:
    """Says that the provider does not answer. The log has the kind of the fault alone,
    since its text may quote what signs somebody in."""
    LOGGER.warning("the provider of [sign_on]: %s", type(fault).__name__)
    return refuse(
        request,
        _("the provider does not answer now: try it again, or use a token"),
        502,
    )


@require_GET
def begin(request: Any) -> HttpResponse:
    """Sends a browser to the provider."""
    if has_asked_too_often(request):
        return refuse(request, _("too many tries: wait a minute"), 429)
    try:
        address, flow = PROVIDER.begin(request.build_absolute_uri("/sign-on/back"))
    except (*SILENT, *INVALID) as fault:
        return no_answer(request, fault)
    Session.objects.filter(expire_date__lt=timezone.now()).delete()
    if request.session.is_empty():
        request.session.set_expiry(FLOW_SECONDS)
    request.session[SESSION_FLOW] = list(flow)
    return HttpResponseRedirect(address)


@require_GET
def back(request: Any) -> HttpResponse:
    """Takes the answer of the provider, once, for the browser that has asked."""
    values = request.session.pop(SESSION_FLOW, None)
    flow = Flow(*values) if values else None
    if flow is None or not is_answer_to(flow, request):
        return refuse(
            request, _("this answer is for another browser, or too late: sign in again")
        )
    code = request.GET.get("code", "")
    if not code or len(code) > MAX_CODE:
        return refuse(request, _("the provider has not signed you in"))
    if has_asked_too_often(request):
        return refuse(request, _("too many tries: wait a minute"), 429)
    try:
        claims = PROVIDER.claims(flow, code)
    except SILENT as fault:
        return no_answer(request, fault)
    except INVALID as fault:
        LOGGER.warning("a token of [sign_on] is refused: %s", type(fault).__name__)
        return refuse(request, _("the provider's answer is not valid: sign in again"))
    return enter(request, claims)


def is_answer_to(flow: Flow, request: Any) -> bool:
    """Returns whether an answer names the state of a flow, in time, and its issuer if it
    names one."""
    state = request.GET.get("state", "").encode(errors="replace")
    issuer = request.GET.get("iss", settings.HALL.sign_on.issuer)
    return (
        secrets.compare_digest(state, flow.state.encode())
        and time.time() - flow.start < FLOW_SECONDS
        and issuer == settings.HALL.sign_on.issuer
    )


def enter(request: Any, claims: Any) -> HttpResponse:
    """Logs in whom the claims name."""
    try:
        person = people.person_of(claims)
        if people.is_teacher(claims):
            user = people.teacher_of(person)
            request.session.flush()
            log_in_user(request, user, BACKEND)
            request.session.set_expiry(TEACHER_SECONDS)
            note(user, "signs in")
            return redirect("/teacher/")
        people.forget_teacher(person)
        team = people.team_of_person(person, claims)
    except people.UnknownPersonError as fault:
        return refuse(request, str(fault))
    log_in(request, team)
    note(team.name, f"signs in as {person}")
    return redirect("/matches")
