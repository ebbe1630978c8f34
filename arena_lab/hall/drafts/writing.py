"""What teams write, within limits."""
from typing import Any, Dict, Optional

from django.db import transaction
from django.db.models import F
from django.utils import timezone
from django.utils.translation import gettext as _

from arena_lab.hall.attempts.asking import RequestRefusedError, make_room
from arena_lab.hall.attempts.shown import time_of
from arena_lab.hall.drafts.written_kits import kit_of
from arena_lab.hall.drafts.models import Draft
from arena_lab.hall.handins import taking
from arena_lab.hall.handins.models import HandIn
from arena_lab.hall.teams.guards import Buckets
from arena_lab.hall.teams.models import Team
from arena_lab.submissions import uploads

# bytes of a draft, its files, and characters of a file's name
MAX_BYTES = 128 << 10
MAX_FILES = 12
MAX_NAME = 60
# how often a team may save a minute
SAVES = 40
saves = Buckets(60)


def draft_of(team: Team, language: str) -> Draft:
    """Returns a team's draft of a kit, initially the kit itself."""
    kit = kit_of(language)
    draft = Draft.objects.filter(team=team, language=language).first()
    return draft or Draft(team=team, language=language, files=kit.files)


def check_files(files: Any) -> Dict[str, str]:
    """Returns the files if they form a valid draft, else raises RequestRefusedError."""
    if not is_draft(files):
        raise RequestRefusedError(
            400,
            _("a draft has 1 to %(count)s files, with names of letters and digits")
            % {"count": MAX_FILES},
        )
    texts: Dict[str, str] = files
    if size_of(texts) > MAX_BYTES:
        raise RequestRefusedError(
            413, _("a draft has at most %(count)s KB") % {"count": MAX_BYTES >> 10}
        )
    return texts


def is_draft(files: Any) -> bool:
    """Returns whether the value maps valid file names to texts."""
    return (
        isinstance(files, dict)
        and 1 <= len(files) <= MAX_FILES
        and all(isinstance(text, str) for text in files.values())
        and all(map(is_name, files))
    )


def is_name(name: str) -> bool:
    """Returns whether a file of a draft may have this name."""
    plain = name.translate(str.maketrans("", "", "._-"))
    is_plain = plain.isascii() and plain.isalnum() and name[0] not in ".-"
    return is_plain and len(name) <= MAX_NAME


def size_of(files: Dict[str, str]) -> int:
    """The bytes of files. Databases take no character of number 0."""
    try:
        sizes = [len(text.encode()) for text in files.values()]
    except UnicodeEncodeError:
        sizes = []
    if not sizes or any("\0" in text for text in files.values()):
        raise RequestRefusedError(400, _("a draft is text in UTF-8"))
    return sum(sizes)


def save(team: Team, language: str, files: Any, version: Any) -> Draft:
    """Keeps what a team has written, unless somebody of it has written something else
    since this version."""
    kit_of(language)
    files = check_files(files)
    if saves.wait(team.name, SAVES):
        raise RequestRefusedError(429, _("your team saves too often: wait a moment"))
    size = size_of(files)
    with transaction.atomic():
        # two requests of a team at the same time are taken one after the other
        Team.objects.select_for_update().get(pk=team.pk)
        draft = Draft.objects.filter(team=team, language=language).first()
        if draft is not None and draft.files == files:
            return draft
        if version != (draft.version if draft else 0):
            raise RequestRefusedError(
                409, _("somebody of your team has changed it meanwhile")
            )
        draft = draft or Draft(team=team, language=language)
        if size > draft.size:
            make_room(team, size - draft.size)
        draft.files = files
        draft.size = size
        draft.version += 1
        draft.at = timezone.now()
        draft.save()
    return draft


def delete(team: Team, language: str) -> None:
    """Deletes what a team has written of a kit; the kit comes in its place. An exercise
    that is done stays done."""
    kit = kit_of(language)
    rows = Draft.objects.filter(team=team, language=language)
    rows.update(files=kit.files, size=0, version=F("version") + 1)


def hand_in(team: Team, language: str, files: Any, contest: Optional[int]) -> HandIn:
    """Hands in what a team has written."""
    kit = kit_of(language)
    files = check_files(files)
    if team.is_guest:
        raise RequestRefusedError(403, _("guests hand in nothing"))
    if not kit.is_handed_in:
        raise RequestRefusedError(400, _("hand-ins are of another language here"))
    return taking.take(
        team,
        f"{kit.main}.zip",
        size_of(files),
        lambda folder: uploads.write_texts(files, folder),
        contest,
    )


def draft_dict(draft: Draft) -> Dict[str, Any]:
    """Returns a draft as its team sees it."""
    kit = kit_of(draft.language)
    return {
        "language": kit.language,
        "files": draft.files,
        "version": draft.version,
        "at": time_of(draft.at) if draft.pk else None,
        "main": kit.main,
        "hand_in": kit.is_handed_in,
    }
