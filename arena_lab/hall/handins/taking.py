"""Takes hand-ins, within the limits of a team."""
import datetime
import pathlib
import secrets
import shutil
from typing import Any, Callable, Dict, List, Optional

from django.conf import settings
from django.db import transaction
from django.utils import timezone
from django.utils.translation import gettext as _

from arena_lab.hall import machine
from arena_lab.hall.attempts.asking import RequestRefusedError, make_room
from arena_lab.hall.attempts.shown import time_of
from arena_lab.hall.handins.grading_work import FILES, place_of
from arena_lab.hall.handins.models import Contest, Grading, HandIn
from arena_lab.hall.handins.windows import (
    Window,
    ends,
    last_of_teams,
    window_of,
    windows,
)
from arena_lab.hall.packing import most_on_disk
from arena_lab.hall.place import log_line
from arena_lab.hall.teams.guards import Buckets
from arena_lab.hall.teams.models import Team, note, today
from arena_lab.play.mistakes import plain
from arena_lab.submissions import uploads
from arena_lab.submissions.submission import SubmissionError

# how many of a team may wait to be graded, and how often a team may send something in a
# minute, taken or not
MAX_WAITING = 3
A_MINUTE = 12
# with what the folder of files that are not taken yet begins
NEW = "new-"
submissions = Buckets(60)


def take_upload(team: Team, file: Any, contest: Optional[int]) -> HandIn:
    """Takes a file or a zip that a team hands in, or refuses it."""
    return take(
        team,
        file.name,
        file.size,
        lambda folder: uploads.unpack_upload(
            file.read(uploads.MAX_SENT + 1), settings.HALL.hand_ins.file, folder
        ),
        contest,
    )


def take(
    team: Team,
    name: str,
    size: int,
    write: Callable[[pathlib.Path], uploads.UploadedFiles],
    number: Optional[int],
) -> HandIn:
    """Takes what `write` writes into a folder, for the course or for the contest of a
    number, or refuses it. `size` is how many bytes are sent."""
    contest = None if number is None else Contest.objects.filter(pk=number).first()
    window = None if contest is None and number is not None else window_of(contest)
    check(team, size, 1, window)
    if submissions.wait(team.name, A_MINUTE):
        raise RequestRefusedError(
            429,
            _(
                "your team has handed in %(count)s times this minute: wait for it to pass"
            )
            % {"count": A_MINUTE},
        )
    new = settings.PLACE.folder / "hand-ins" / f"{NEW}{secrets.token_hex(8)}"
    try:
        rules = settings.HALL.hand_ins
        files = write(new / FILES)
        uploads.check_program(new / FILES, rules.file, rules.command)
        return keep_hand_in(team, plain(name)[:80], files, window, new)
    except SubmissionError as fault:
        raise RequestRefusedError(400, str(fault)) from None
    except OSError as fault:
        log_line(f"{new}: {fault}")
        raise RequestRefusedError(
            503, _("the hall cannot write this now: tell your teacher")
        ) from None
    finally:
        shutil.rmtree(new, ignore_errors=True)


def keep_hand_in(
    team: Team,
    name: str,
    unpacked_files: uploads.UploadedFiles,
    window: Optional[Window],
    new: pathlib.Path,
) -> HandIn:
    """A hand-in whose files a folder has, which becomes its own; wholly or not at
    all."""
    with transaction.atomic():
        team = Team.objects.select_for_update().get(pk=team.pk)
        check(team, unpacked_files.size, unpacked_files.files, window)
        hand_in = HandIn.objects.create(
            team=team,
            contest=window and window.contest,
            name=name,
            **unpacked_files._asdict(),
        )
        # a leftover folder of an aborted hand-in, whose number is reused
        shutil.rmtree(hand_in.folder, ignore_errors=True)
        new.rename(hand_in.folder)
        Grading.objects.create(hand_in=hand_in)
        note(
            team.name,
            f"hands in {hand_in.pk}: {hand_in.files} files, {hand_in.size} bytes",
        )
    return hand_in


def check(team: Team, size: int, files: int, window: Optional[Window]) -> None:
    """Refuses what is more than a team may hand in now, of so many bytes in so many
    files. A contest takes any number of hand-ins, the course some a day."""
    if window is None:
        raise RequestRefusedError(404, _("nothing is handed in here"))
    if not window.has_begun():
        raise RequestRefusedError(403, _("the contest has not begun"))
    end = window.end_for(team)
    if end is not None and timezone.now() > end:
        raise RequestRefusedError(403, _("the deadline has passed"))
    if size > uploads.MAX_SENT:
        raise RequestRefusedError(
            413,
            _("a hand-in has at most %(count)s MB") % {"count": uploads.MAX_SENT >> 20},
        )
    if window.contest is None and not left_today(team):
        raise RequestRefusedError(
            429,
            _("your team has handed in %(count)s times today")
            % {"count": settings.HALL.hand_ins.a_day},
        )
    if (
        Grading.objects.filter(
            hand_in__team=team, state=machine.WAITING, is_secret=False
        ).count()
        >= MAX_WAITING
    ):
        raise RequestRefusedError(
            429,
            _("%(count)s hand-ins of your team wait to be graded: wait for one")
            % {"count": MAX_WAITING},
        )
    make_room(team, most_on_disk(size, files))


def left_today(team: Team) -> int:
    """Returns how many more hand-ins a team has today."""
    used_count = HandIn.objects.filter(team=team, contest=None, at__gte=today()).count()
    return max(0, int(settings.HALL.hand_ins.a_day - used_count))


def hand_in_dict(hand_in: HandIn) -> Dict[str, Any]:
    """Returns a hand-in as its team sees it. The result of the secret draw is included
    once the teacher has shown it."""
    public = next(
        (grading for grading in hand_in.gradings.all() if not grading.is_secret), None
    )
    return {
        "id": hand_in.pk,
        "contest": hand_in.contest_id,
        "at": time_of(hand_in.at),
        "name": hand_in.name,
        "size": hand_in.size,
        "files": hand_in.files,
        "sha256": hand_in.digest,
        "state": public.state if public else "",
        "fault": public.fault if public else "",
        "place": place_of(public) if public else None,
        "result": result_of(public),
    }


def result_of(grading: Optional[Grading]) -> Optional[Dict[str, Any]]:
    """Returns the result of a finished grading, else None."""
    if grading is None or not grading.is_over:
        return None
    window = window_of(grading.hand_in.contest)
    names = {**window.secret, **window.public} if window else {}
    return {
        "solved": grading.solved,
        "matches": grading.matches,
        "moves": grading.moves,
        "lost": grading.lost,
        "networks": {
            names.get(network, network): of for network, of in grading.networks.items()
        },
    }


def grade_secretly(now: datetime.datetime) -> int:
    """Asks for the grading of each team's last hand-in by the secret draw, once the
    window has ended for that team; gives how many were asked for."""
    teams = list(Team.objects.filter(is_guest=False))
    graded_hand_ins = set(
        Grading.objects.filter(is_secret=True).values_list("hand_in", flat=True)
    )
    new: List[int] = []
    for window in windows():
        last = last_of_teams(window)
        until = ends(window, teams)
        new += [
            pk
            for team, pk in last.items()
            if pk not in graded_hand_ins
            and (end := until[team]) is not None
            and now > end
        ]
    for pk in new:
        Grading.objects.get_or_create(hand_in_id=pk, is_secret=True)
    return len(new)
