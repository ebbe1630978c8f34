"""Has programs tried, each trial by a process of its own that ends with the worker. The
programs run in sandboxes."""
import json
import pathlib
import shutil
import time
from typing import Any, Dict

from django.conf import settings
from django.db import transaction
from django.utils.translation import gettext as _

from arena_lab.course.trial_files import (
    REQUEST_FILE,
    CHECK,
    EXPLORE,
    FAULT_FILE,
    FILES,
    RESULT_FILE,
    LOG,
    PAGE,
    PLAY,
)
from arena_lab.hall import grading_terms, machine, packing
from arena_lab.hall.attempts.asking import RequestRefusedError
from arena_lab.hall.children import last_line
from arena_lab.hall.drafts import writing
from arena_lab.hall.drafts.forking import trial_in
from arena_lab.hall.drafts.written_kits import WrittenKit, exercise_of, kit_of
from arena_lab.hall.drafts.models import Draft, Trial
from arena_lab.hall.handins.windows import window_of
from arena_lab.hall.place import OWNER, write_whole
from arena_lab.hall.work_steps import Lease, Stages, WorkLostError, do_in_folder, step
from arena_lab.hall.teams.models import Team
from arena_lab.rules import draws
from arena_lab.sandbox import sandboxes
from arena_lab.submissions import uploads
from arena_lab.support import fields
from arena_lab.support.faults import ArenaError

# seconds that the process may take beside its programs, and bytes of what it finds
EXTRA_SECONDS = 20
MAX_RESULT = 1 << 20
# seconds between two looks at the process, and between two that ask whether the team
# has stopped it
LOOK = 0.05
ASKS = 0.7
# gradings and the hall come first on a busy processor, then members of teams, then guests
MEMBERS_SHARE = {"nice": 5, "processes": sandboxes.MAX_PROCESSES}
GUESTS_SHARE = {"nice": 19, "processes": 64}
# what a check plays if nothing is handed in
DEFAULT_CONDITIONS: Dict[str, Any] = {
    "holes": 1,
    "schedulers": ["fair", "slow-agents"],
    "seeds": 1,
}
RINGS = ["ring:3", "ring:4", "ring:5", "ring:8"]


def play(number: int, holder: str) -> None:
    """Tries a program, if this holder holds the work."""
    stages = Stages(prepare, run, finish)
    do_in_folder(Trial, number, holder, stages, "team")


def prepare(work: Trial, folder: pathlib.Path) -> None:
    """Writes the program, and what is asked for."""
    uploads.write_texts(work.files, folder / FILES)
    try:
        kit = kit_of(work.language)
    except RequestRefusedError:
        raise ArenaError(
            _("your teacher has removed this kit or exercise: choose another")
        ) from None
    exercise = exercise_of(work.language)
    request = {
        "kind": work.kind,
        "exercise": exercise.name if exercise else "",
        "command": kit.command,
        "conditions": {} if exercise else conditions_of(work, kit),
        "scheduler": work.scheduler,
        "seed": work.seed,
        "seconds": seconds_of(work),
        "line": kit.line,
        # what is possible here is tried out once by each worker
        "isolation": sandboxes.strongest().name,
        "program": settings.PLACE.program,
        **share_of(work.team),
    }
    write_whole(folder / REQUEST_FILE, json.dumps(request))


def share_of(team: Team) -> Dict[str, int]:
    """Returns how nice the trials of a team are, and how many processes a program may
    have. Who has begun `arena-lab try` is no stranger there."""
    is_stranger = team.is_guest and not (settings.PLACE.folder / OWNER).exists()
    return GUESTS_SHARE if is_stranger else MEMBERS_SHARE


def seconds_of(work: Trial) -> int:
    """Returns how long its programs may take."""
    rules = settings.HALL.editor
    return int(rules.seconds if work.kind == PLAY else rules.search)


def conditions_of(work: Trial, kit: WrittenKit) -> Dict[str, Any]:
    """Returns the conditions of a trial as a course file has them. A check of a program
    that can be handed in uses the conditions of grading."""
    window = window_of(None)
    if work.kind == CHECK and kit.is_handed_in and window is not None:
        return fields.table_of(grading_terms.text_of(settings.HALL, window.public, {}))
    if work.kind == CHECK:
        return {**DEFAULT_CONDITIONS, "networks": RINGS}
    if work.kind == EXPLORE:
        return {**DEFAULT_CONDITIONS, "networks": [work.network], "ports": draws.GIVEN}
    net = settings.HALL.nets.get(work.network)
    if net is None:
        raise ArenaError("the hall has no such network any more")
    return {
        **DEFAULT_CONDITIONS,
        "networks": [net.word],
        "holes": net.holes,
        "schedulers": [work.scheduler],
        "agents": net.agents,
        "quota": net.quota,
        "board": net.board,
        "ports": draws.DRAWN if net.labels == draws.DRAWN else draws.GIVEN,
    }


def run(work: Trial, holder: str, folder: pathlib.Path) -> None:
    """Runs the process, until it ends, its time is up or its team stops it."""
    lease = Lease(work, holder, ASKS)
    seconds = seconds_of(work) + EXTRA_SECONDS
    until = time.monotonic() + seconds
    with trial_in(folder) as has_ended:
        while not has_ended(LOOK):
            lease.wait(0)
            if time.monotonic() > until:
                raise ArenaError(f"it was ended after {seconds} s")
    if (folder / FAULT_FILE).exists():
        raise ArenaError(f"it could not be tried: {last_line(folder / FAULT_FILE)}")
    if not (folder / RESULT_FILE).exists():
        raise machine.MachineFaultError(
            f"the process of a trial was ended: {last_line(folder / LOG)}"
        )


def finish(work: Trial, holder: str, folder: pathlib.Path) -> None:
    """Stores the result of a trial and moves its files into place, in one
    transaction."""
    path = folder / RESULT_FILE
    if path.stat().st_size > MAX_RESULT:
        raise ArenaError("what came of it is too much to be told")
    text = path.read_text(encoding="utf-8")
    report = json.loads(text)
    path.unlink()
    shutil.rmtree(folder / FILES)
    size = packing.pack(folder)
    with transaction.atomic():
        is_mine = step(
            work,
            machine.FINISH,
            holder,
            found=report,
            has_page=packing.packed_path(folder / PAGE).exists(),
            size=work.size + len(text) + size,
        )
        if not is_mine:
            raise WorkLostError
        if report["right"] and exercise_of(work.language):
            note_done(work)
        shutil.rmtree(work.folder, ignore_errors=True)
        folder.rename(work.folder)


def note_done(work: Trial) -> None:
    """Notes that a team has done an exercise."""
    draft, _ = Draft.objects.get_or_create(
        team=work.team,
        language=work.language,
        defaults={"files": work.files, "size": writing.size_of(work.files)},
    )
    Draft.objects.filter(pk=draft.pk).update(is_done=True)
