"""Pages of hand-ins."""
import contextlib
import functools
import pathlib
import re
from typing import Any, Dict, List

from django.conf import settings
from django.http import Http404, HttpResponse, StreamingHttpResponse
from django.shortcuts import redirect, render
from django.utils import timezone
from django.utils.html import escape

from arena_lab.hall import grading_terms as given_to
from arena_lab.hall import packing
from arena_lab.hall.attempts.asking import RequestRefusedError
from arena_lab.hall.attempts.views import send_file
from arena_lab.hall.handins import taking
from arena_lab.hall.handins.grading_work import FILES, OUT, TEAM_PAGE
from arena_lab.hall.handins.models import HandIn
from arena_lab.hall.handins.windows import windows
from arena_lab.hall.teams.guards import SANDBOX_POLICY
from arena_lab.hall.teams.views import for_teams, owned_row
from arena_lab.play.mistakes import plain

NUMBER = re.compile("[0-9]{1,9}")
# result files that a team may read: its page, and the files that it links
RESULT_PATH = re.compile(r"failed/[\w-]+/(?:smallest/)?[\w.-]+")
# characters other than printable ASCII
UNSEEN = re.compile(r"[^\n\t -~]")
# bytes of sources that a page has, and hand-ins whose sources are kept as pages have
# them
MAX_SHOWN = 400_000
MAX_PAGES = 16
KINDS = {".html": "text/html; charset=utf-8"}


@for_teams
def list_hand_ins(request: Any, refusal: str = "", status: int = 200) -> HttpResponse:
    """Shows a team's hand-ins, and a form for another one."""
    hand_ins = (
        HandIn.objects.filter(team=request.team)
        .select_related("contest")
        .prefetch_related("gradings")[:50]
    )
    open_now = [
        {"contest": window.contest, "end": end}
        for window in windows()
        if window.has_begun()
        and ((end := window.end_for(request.team)) is None or end >= timezone.now())
    ]
    context = {
        "hand_ins": [
            {**taking.hand_in_dict(hand_in), "of": hand_in.contest or ""}
            for hand_in in hand_ins
        ],
        "open": open_now,
        "left": taking.left_today(request.team) if settings.HALL.hand_ins else 0,
        "refusal": refusal,
    }
    return render(request, "hand_ins.html", context, status=status)


@for_teams
def take(request: Any) -> HttpResponse:
    """Takes a hand-in."""
    file = request.FILES.get("file")
    contest = request.POST.get("contest", "")
    if request.method != "POST" or file is None:
        return redirect("/hand-ins")
    try:
        # a contest number that is no number matches no contest
        number = int(contest) if NUMBER.fullmatch(contest) else 0
        taking.take_upload(request.team, file, number if contest else None)
    except RequestRefusedError as fault:
        return list_hand_ins(request, str(fault), fault.status_code)
    return redirect("/hand-ins")


@for_teams
def conditions(request: Any, number: int = 0) -> HttpResponse:
    """Sends the conditions of grading in the course or in a contest, for checks by the
    team."""
    for window in windows():
        if (
            window.has_begun()
            and (window.contest.pk if window.contest else 0) == number
        ):
            text = given_to.for_teams(settings.HALL, window.public)
            return HttpResponse(text, content_type="text/plain; charset=utf-8")
    raise Http404


def own_hand_in(request: Any, number: int) -> HandIn:
    """A hand-in of the team that asks, or of any if who asks may see gradings."""
    return owned_row(request, HandIn, number, "handins.view_grading")


def show_hand_in(request: Any, number: int) -> HttpResponse:
    """A hand-in with its sources, as far as they are texts that a page takes."""
    hand_in = own_hand_in(request, number)
    return render(
        request,
        "hand_in.html",
        {
            "told": taking.hand_in_dict(hand_in),
            "of": hand_in,
            "files": sources(hand_in.folder / FILES),
        },
    )


@functools.lru_cache(MAX_PAGES)
def sources(folder: pathlib.Path) -> List[Dict[str, Any]]:
    """Returns the files of a hand-in with their texts as HTML. The result is cached,
    since large files take a third of a second."""
    characters_left = MAX_SHOWN
    sources = []
    for path in sorted(
        file for file in folder.rglob("*") if file.is_file() and not file.is_symlink()
    ):
        size = path.stat().st_size
        text = None
        if size <= characters_left:
            with contextlib.suppress(UnicodeDecodeError):
                text = escape(as_seen(path.read_text(encoding="utf-8")))
                characters_left -= size
        sources.append(
            {"name": as_seen(str(path.relative_to(folder))), "size": size, "text": text}
        )
    return sources


def as_seen(text: str) -> str:
    """A text in which nothing hides: what turns the direction of writing, or is not
    seen, is shown by its code."""
    return UNSEEN.sub(lambda match: plain(match[0]), text)


def result(request: Any, number: int, path: str) -> StreamingHttpResponse:
    """Sends the page of a team's results, or a file that it links. It quotes programs,
    so its policy forbids all requests."""
    hand_in = own_hand_in(request, number)
    grading = hand_in.gradings.filter(is_secret=False).first()
    if grading is None or not grading.is_over:
        raise Http404
    name = TEAM_PAGE.format(team=hand_in.team.name) if not path else path
    if path and (not RESULT_PATH.fullmatch(path) or ".." in path):
        raise Http404
    out = (grading.folder / OUT).resolve()
    result_path = out / name
    if (
        result_path.resolve() != result_path
        or not packing.packed_path(result_path).is_file()
    ):
        raise Http404
    response = send_file(
        result_path, KINDS.get(result_path.suffix, "text/plain; charset=utf-8")
    )
    response["Content-Security-Policy"] = SANDBOX_POLICY
    return response
