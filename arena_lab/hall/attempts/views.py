"""Pages of a team's attempts."""
import functools
from typing import Any

from django.http import FileResponse, Http404, HttpResponse, StreamingHttpResponse
from django.shortcuts import redirect, render
from django.views.decorators.http import require_POST

from arena_lab.hall import machine, packing
from arena_lab.hall.attempts import asking, shown
from arena_lab.hall.attempts.models import Attempt, Match
from arena_lab.hall.teams.guards import SANDBOX_POLICY
from arena_lab.hall.teams.views import for_teams, owned_row

# bytes of a compressed file that are read at a time
PIECE = 64 << 10


def own_attempt(
    request: Any, number: int, right: str = "attempts.view_attempt"
) -> Attempt:
    """An attempt."""
    return owned_row(request, Attempt, number, right)


@for_teams
def list_attempts(request: Any, refusal: str = "", status: int = 200) -> HttpResponse:
    """Shows the networks that a team may request, and its attempts."""
    context = {
        "offers": asking.offers(),
        "attempts": shown.attempts(request.team),
        "refusal": refusal,
    }
    return render(request, "attempts.html", context, status=status)


@for_teams
def ask(request: Any) -> HttpResponse:
    """Asks for an attempt."""
    if request.method != "POST":
        return redirect("/matches")
    try:
        new_attempt = asking.ask(request.team, request.POST.get("network", ""))
    except asking.RequestRefusedError as fault:
        return list_attempts(request, str(fault), fault.status_code)
    return redirect(f"/matches/{new_attempt.pk}")


def show_attempt(request: Any, number: int) -> HttpResponse:
    """Shows an attempt: how to connect, and its result."""
    attempt = own_attempt(request, number)
    attempt_dict = shown.attempt(attempt)
    goes_on = attempt.state not in machine.ENDED
    pages = sum(match["page"] is not None for match in attempt_dict["matches"])
    is_watched = (
        goes_on
        or attempt.is_over
        and pages < len(attempt_dict["matches"])
        and attempt.size > 0
    )
    return render(
        request,
        "attempt.html",
        {
            "told": attempt_dict,
            "goes_on": goes_on,
            "is_watched": is_watched,
            "pages": pages,
        },
    )


@require_POST
def close(request: Any, number: int) -> HttpResponse:
    asking.close(own_attempt(request, number, "attempts.change_attempt"))
    return redirect(f"/matches/{number}")


def match_of(request: Any, number: int, match: int) -> Match:
    """Returns a match of a finished attempt, or raises Http404."""
    attempt = own_attempt(request, number)
    match_row = (
        attempt.matches.filter(number=match).first() if attempt.is_over else None
    )
    if match_row is None:
        raise Http404
    return match_row


def replay(request: Any, number: int, match: int) -> StreamingHttpResponse:
    """Sends the replay of a finished match."""
    return send_file(
        match_of(request, number, match).replay,
        "text/plain; charset=utf-8",
        f"match{number}-{match}.jsonl",
    )


def page(request: Any, number: int, match: int) -> StreamingHttpResponse:
    """Sends the page of a finished match. The page quotes strangers, so its policy
    forbids all requests."""
    response = send_file(
        match_of(request, number, match).page, "text/html; charset=utf-8"
    )
    response["Content-Security-Policy"] = SANDBOX_POLICY
    return response


def send_file(path: Any, kind: str, name: str = "") -> StreamingHttpResponse:
    """Streams a file, as a download if a name is given."""
    try:
        file = packing.open_packed(path)
    except FileNotFoundError:
        raise Http404 from None
    pieces = iter(functools.partial(file.read, PIECE), b"")
    response = (
        FileResponse(file, content_type=kind)
        if path.is_file()
        else StreamingHttpResponse(pieces, content_type=kind)
    )
    if name:
        response["Content-Disposition"] = f'attachment; filename="{name}"'
    return response
