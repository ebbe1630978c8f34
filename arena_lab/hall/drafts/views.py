"""The page on which a team writes and tries a program."""
import secrets
from typing import Any, Dict, List

from django.conf import settings
from django.http import Http404, HttpResponse, StreamingHttpResponse
from django.shortcuts import redirect, render
from django.utils import timezone
from django.views.decorators.http import require_POST

from arena_lab.course.trial_files import PAGE, REPLAY
from arena_lab.hall.attempts.asking import RequestRefusedError, open_networks
from arena_lab.hall.attempts.views import send_file
from arena_lab.hall.drafts import guests, written_kits, trying, words, writing
from arena_lab.hall.drafts.models import Trial
from arena_lab.hall.handins.windows import Window, windows
from arena_lab.hall.place import OWNER
from arena_lab.hall.teams import guards, logins
from arena_lab.hall.teams.models import Team
from arena_lab.hall.teams.views import owned_row
from arena_lab.play.kits import KITS

# the page shows a match in a frame from the hall itself
CONTENT = f"{guards.STRICT}; frame-src 'self'"


def own_trial(request: Any, number: int) -> Trial:
    """A trial."""
    trial: Trial = owned_row(request, Trial, number, "drafts.view_trial", "writer")
    return trial


def taking_now(team: Team) -> List[Window]:
    """The windows in which a team may hand in now."""
    if team.is_guest:
        return []
    now = timezone.now()
    return [
        window
        for window in windows()
        if window.has_begun() and ((end := window.end_for(team)) is None or end >= now)
    ]


def guest_page(request: Any, action: str) -> HttpResponse:
    """Shows the page on which one begins as a guest."""
    return render(request, "guest.html", {"action": action})


def page(request: Any) -> HttpResponse:
    """Shows the editor of a kit to a team or a guest."""
    rules = settings.HALL.editor
    if rules is None:
        raise Http404
    if request.writer is None:
        return (
            guest_page(request, "/write/guest") if rules.guests else redirect("/login")
        )
    team = request.writer
    language = request.GET.get("language") or written_kits.languages()[0]
    try:
        kit = written_kits.kit_of(language)
        draft = writing.draft_dict(writing.draft_of(team, language))
    except RequestRefusedError:
        raise Http404 from None
    exercise = written_kits.exercise_of(language)
    context: Dict[str, Any] = {
        "exercise": exercise,
        "exercises": trying.exercises_of(team),
        "draft": {**draft, "kit": kit.files, "team": team.name},
        "kits": [
            (language, KITS[language].name) for language in written_kits.languages()
        ],
        "chosen": language,
        "networks": open_networks(),
        "small": trying.SMALL,
        "schedulers": trying.SCHEDULERS,
        "open": taking_now(team) if kit.is_handed_in else [],
        "words": words.words(),
        "most_seed": trying.MAX_SEED,
    }
    response = render(request, "write.html", context)
    response["Content-Security-Policy"] = CONTENT
    return response


@require_POST
def begin_as_guest(request: Any) -> HttpResponse:
    """Lets somebody without a token write and try."""
    try:
        logins.log_in(request, guests.admit(guards.site_of(request)))
    except RequestRefusedError as fault:
        return guards.refusal(fault.status_code, str(fault))
    return redirect("/write")


def begin_by_class(request: Any, word: str) -> HttpResponse:
    """Lets in who has the link of the class, as a guest counted apart from others."""
    if not guests.is_of_class(word):
        raise Http404
    if request.method != "POST":
        return guest_page(request, request.path)
    try:
        logins.log_in(request, guests.admit_by_class(word))
    except RequestRefusedError as fault:
        return guards.refusal(fault.status_code, str(fault))
    return redirect("/write")


def begin_as_owner(request: Any, secret: str) -> HttpResponse:
    """Lets in who knows the secret of `arena-lab try`."""
    folder = settings.PLACE.folder
    is_own = (folder / OWNER).exists() and secrets.compare_digest(
        secret, settings.PLACE.secret(OWNER)
    )
    if not is_own:
        raise Http404
    logins.log_in(request, guests.owner())
    return redirect("/write")


def match_page(request: Any, number: int) -> StreamingHttpResponse:
    """Sends the page of a trial's match. It quotes programs, so its policy forbids all
    requests, and only the hall's own page may frame it."""
    trial = own_trial(request, number)
    response = send_file(trial.folder / PAGE, "text/html; charset=utf-8")
    response["Content-Security-Policy"] = guards.BOXED_INSIDE
    response["X-Frame-Options"] = "SAMEORIGIN"
    return response


def replay(request: Any, number: int) -> StreamingHttpResponse:
    """The replay of a match that was tried."""
    path = own_trial(request, number).folder / REPLAY
    return send_file(path, "text/plain; charset=utf-8", f"trial{number}.jsonl")
