"""Trials of what teams write: what a team may ask for, and what it reads of a trial."""
import shutil
from typing import Any, Collection, Dict, List

from django.conf import settings
from django.db import transaction
from django.utils.translation import gettext as _

from arena_lab.course.trial_files import EXPLORE, KINDS, PLAY
from arena_lab.hall import machine
from arena_lab.hall.attempts.asking import RequestRefusedError, make_room, open_networks
from arena_lab.hall.attempts.shown import time_of
from arena_lab.hall.drafts import writing
from arena_lab.hall.drafts.written_kits import all_exercises, exercise_of, kit_of
from arena_lab.hall.drafts.models import Draft, Trial
from arena_lab.hall.work_steps import step
from arena_lab.hall.teams.models import Team, note, today
from arena_lab.play.schedulers import SCHEDULER_MAKERS

# where every schedule is tried: of larger networks nobody waits for all
SMALL = ("ring:3", "ring:4", "ring:5")
SCHEDULERS = tuple(SCHEDULER_MAKERS)
MAX_SEED = 999_999
# default members of a request for a trial
DEFAULT_REQUEST = {"kind": PLAY, "network": "", "scheduler": SCHEDULERS[0], "seed": 0}
# seconds after which a team asks again whose program is being tried
RETRY_SECONDS = 2
# trials of a team that are kept
MAX_TRIALS_KEPT = 30


def ask(team: Team, values: Dict[str, Any]) -> Trial:
    """Has a draft tried."""
    kit = kit_of(values.get("language"))
    files = writing.check_files(values.get("files"))
    request = {
        name: values.get(name, default) for name, default in DEFAULT_REQUEST.items()
    }
    exercise = exercise_of(kit.language)
    if exercise is None:
        check(**request)
    else:
        # an exercise defines its own matches
        request = {**DEFAULT_REQUEST, "kind": EXPLORE if exercise.every else PLAY}
    size = writing.size_of(files)
    with transaction.atomic():
        team = Team.objects.select_for_update().get(pk=team.pk)
        check_limits(team)
        make_room(team, size)
        trial = Trial.objects.create(
            team=team, language=kit.language, files=files, size=size, **request
        )
        remove_old(team)
        note(team.name, f"tries {trial.pk}: {trial.kind} on {trial.network}")
    return trial


def check(kind: Any, network: Any, scheduler: Any, seed: Any) -> None:
    """Refuses what cannot be tried."""
    networks = SMALL if kind == EXPLORE else open_networks()
    is_number = type(seed) is int and 0 <= seed <= MAX_SEED
    if (
        kind not in KINDS
        or network not in networks
        or scheduler not in SCHEDULERS
        or not is_number
    ):
        raise RequestRefusedError(400, _("there is no such network, schedule or seed"))


def check_limits(team: Team) -> None:
    """Refuses what is more than a team may try."""
    trials = Trial.objects.filter(team=team)
    if trials.filter(state__in=(machine.WAITING, *machine.ACTIVE)).exists():
        raise RequestRefusedError(
            429,
            _("a program of your team is being tried: wait for it, or stop it"),
            wait=RETRY_SECONDS,
        )
    limit = settings.HALL.editor.a_day
    if trials.filter(asked__gte=today()).count() >= limit:
        raise RequestRefusedError(
            429, _("your team has tried %(count)s programs today") % {"count": limit}
        )


def remove_old(team: Team) -> None:
    """Removes the files of old trials, and all that is known of those of other days."""
    trials = Trial.objects.filter(team=team)
    for old in trials.filter(state__in=machine.ENDED, size__gt=0)[MAX_TRIALS_KEPT:]:
        forget(old)
    trials.filter(state__in=machine.ENDED, size=0, asked__lt=today()).delete()


def forget(trial: Trial) -> None:
    """Removes the files of a trial, and what came of it."""
    rows = Trial.objects.filter(pk=trial.pk)
    rows.update(files={}, found=None, has_page=False, size=0)
    shutil.rmtree(trial.folder, ignore_errors=True)


def delete(trial: Trial) -> None:
    """Deletes the files of a trial that has ended. Its row counts until tomorrow."""
    if trial.state not in machine.ENDED:
        raise RequestRefusedError(409, _("it is being tried: stop it first"))
    forget(trial)


def delete_all(team: Team) -> None:
    """Deletes the files of all trials of a team that have ended."""
    for trial in kept_trials(team):
        if trial.state in machine.ENDED:
            forget(trial)


def due(limit: int, room: int, resting: Collection[int] = ()) -> List[Trial]:
    """The trials that may begin, as many as there is room for, of which the hall plays
    `limit` at a time; those that rest wait. Matches come before searches, which leave
    one place to them, and teams before guests."""
    if room <= 0:
        return []
    active = Trial.objects.filter(state__in=machine.ACTIVE)
    searches = active.exclude(kind=PLAY).count()
    waiting = Trial.objects.filter(state=machine.WAITING).exclude(pk__in=resting)
    trials: List[Trial] = []
    order = waiting.select_related("team").order_by("pk")
    for trial in sorted(
        order, key=lambda trial: (trial.kind != PLAY, trial.team.is_guest)
    ):
        if trial.kind != PLAY:
            searches += 1
        if len(trials) < room and (trial.kind == PLAY or searches <= max(1, limit - 1)):
            trials.append(trial)
    return trials


def exercises_of(team: Team) -> List[Dict[str, Any]]:
    """Lists the exercises, each with whether the team has solved it."""
    drafts = Draft.objects.filter(team=team, is_done=True)
    languages_done = set(drafts.values_list("language", flat=True))
    return [
        {"name": name, "title": exercise.title, "is_done": name in languages_done}
        for name, exercise in all_exercises().items()
    ]


def close(trial: Trial) -> bool:
    """Stops a trial; gives whether there was anything to do."""
    return step(trial, machine.CANCEL)


def kept_trials(team: Team) -> List[Trial]:
    """The trials of a team whose files are kept, the newest first."""
    return list(Trial.objects.filter(team=team, size__gt=0))


def brief(trial: Trial) -> Dict[str, Any]:
    """A trial in a line."""
    report = trial.found or {}
    return {
        "id": trial.pk,
        "language": trial.language,
        "kind": trial.kind,
        "network": trial.network,
        "scheduler": trial.scheduler,
        "seed": trial.seed,
        "state": trial.state,
        "asked": time_of(trial.asked),
        "fault": trial.fault,
        "right": report.get("right"),
        "verdict": report.get("verdict", ""),
    }


def trial_dict(trial: Trial) -> Dict[str, Any]:
    """Returns a trial as its team sees it."""
    return {
        **brief(trial),
        "found": trial.found,
        "page": f"/write/trials/{trial.pk}/page" if trial.has_page else None,
    }
