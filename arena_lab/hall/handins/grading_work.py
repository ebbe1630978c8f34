"""Grades a hand-in: `grade` plays it in its sandboxes, as a command of its own, so that
nothing of a team's program is in a process of the hall.

A grading at once has draws of its own, since a team hands in again and again and must
not learn where the black holes are. The secret one has the same draws for all teams.
"""
import collections
import contextlib
import csv
import datetime
import hashlib
import pathlib
import shutil
import sys
from typing import Any, Collection, Dict, List, NamedTuple, Optional, Tuple

from django.conf import settings
from django.db import transaction
from django.utils import timezone

from arena_lab.hall import grading_terms, machine, packing
from arena_lab.hall.attempts.asking import bytes_of, own_bytes
from arena_lab.hall.children import LOG, child_of, last_line
from arena_lab.hall.handins.models import Grading
from arena_lab.hall.handins.windows import window_of
from arena_lab.hall.place import SECRET, write_whole
from arena_lab.hall.work_steps import Lease, Stages, WorkLostError, do_in_folder, step
from arena_lab.support.faults import ArenaError

# for how long it is known how long a team's programs took
RECENT = datetime.timedelta(days=1)
COURSE = "course.toml"
FILES = "files"
OUT = "out"
TEAM_PAGE = "team-{team}.html"
# of matches: failed and solved ones
MATCHES = ("failed", "solved")
# MB that a grading at once may write in any case
MIN_SPACE = 16
SOLVED_FOLDER = "solved"


def grade(number: int, holder: str) -> None:
    """Grades a hand-in, if this holder holds the work."""
    stages = Stages(prepare, run, finish)
    do_in_folder(Grading, number, holder, stages, "hand_in__team", "hand_in__contest")


def prepare(work: Grading, folder: pathlib.Path) -> None:
    """Writes the file of a course that has this team alone, and the secret of its
    draws."""
    rules = settings.HALL.hand_ins
    team = work.hand_in.team
    window = window_of(work.hand_in.contest)
    names = window and (window.secret if work.is_secret else window.public)
    if not names:
        raise ArenaError(
            "the hall takes no hand-ins any more, or has no network of this contest"
        )
    folder.mkdir(mode=0o700)
    # what decides in the end has all the room that a course gives it
    megabytes_left = max(MIN_SPACE, bytes_of(team) - own_bytes(team) >> 20)
    extra_limits = {} if work.is_secret else {"team_space": megabytes_left}
    text = grading_terms.text_of(settings.HALL, names, extra_limits)
    team_rows = grading_terms.rows_in(
        {"name": team.name, "files": [f"../{FILES}"], "command": rules.command}
    )
    write_whole(folder / COURSE, f"{text}\n[[team]]\n{team_rows}")
    write_whole(
        folder / SECRET, hashlib.sha256(drawn_from(work).encode()).hexdigest() + "\n"
    )


def drawn_from(work: Grading) -> str:
    """Returns the seed text of a grading's draws."""
    secret = settings.PLACE.secret(SECRET)
    contest = work.hand_in.contest_id
    if not work.is_secret:
        return f"{secret} {work.pk}"
    return secret if contest is None else f"{secret} contest {contest}"


def run(work: Grading, holder: str, folder: pathlib.Path) -> None:
    """Runs `grade` as a child that ends with this worker, like its sandboxes. Faults of
    programs appear in the rows that `grade` writes; if `grade` itself fails, the
    machine is at fault."""
    words = [
        sys.executable,
        "-m",
        "arena_lab",
        "grade",
        COURSE,
        "--out",
        OUT,
        "--secret",
        SECRET,
        "--workers",
        "1",
        "--program",
        settings.PLACE.program,
    ]
    lease = Lease(work, holder)
    with child_of(words, folder) as child:
        while child.poll() is None:
            lease.wait()
    if child.returncode != 0:
        raise machine.MachineFaultError(
            f"`grade` ended with status {child.returncode}: {last_line(folder / LOG)}"
        )


def finish(work: Grading, holder: str, folder: pathlib.Path) -> None:
    """Stores the result of a grading and moves its files into place, in one
    transaction."""
    rows = rows_of(folder / OUT, work.hand_in.team.name)
    solved_rows = [row for row in rows if row["solved"]]
    networks = {row["network"]: [0, 0] for row in rows}
    for row in rows:
        networks[row["network"]][0] += row["solved"]
        networks[row["network"]][1] += 1
    for name in MATCHES:
        packing.pack(folder / OUT / name)
    with transaction.atomic():
        if not step(
            work,
            machine.FINISH,
            holder,
            solved=len(solved_rows),
            matches=len(rows),
            networks=networks,
            size=packing.size_of(folder),
            moves=sum(row["moves"] for row in solved_rows),
            lost=sum(row["lost"] for row in solved_rows),
        ):
            raise WorkLostError
        for earlier in set(folder.parent.glob(f"{work.folder.name}*")) - {folder}:
            shutil.rmtree(earlier, ignore_errors=True)
        folder.rename(work.folder)


def rows_of(out: pathlib.Path, team: str) -> List[Dict[str, Any]]:
    """Reads the rows of a grading. A match whose repetition differed counts as
    failed."""
    repeats: Dict[str, str] = {}
    with contextlib.suppress(FileNotFoundError), (out / "repeats.csv").open(
        encoding="utf-8", newline=""
    ) as file:
        repeats = {row["run"]: row["fault"] for row in csv.DictReader(file)}
    with (out / "runs.csv").open(encoding="utf-8", newline="") as file:
        return [
            {
                "network": row["network"],
                "moves": int(row["moves"]),
                "lost": int(row["lost"]),
                "solved": row["outcome"] == SOLVED_FOLDER
                and not row["fault"]
                and not repeats.get(row["run"]),
            }
            for row in csv.DictReader(file)
            if row["team"] == team
        ]


class Turn(NamedTuple):
    """When the turn of a waiting grading comes, as it sorts: after how many others of
    its team; how long the last grading of its team took, and when that ended; its
    number."""

    earlier: int
    duration: datetime.timedelta
    end: datetime.datetime
    number: int


def due(room: int, resting: Collection[int] = ()) -> List[Grading]:
    """Returns the gradings to start, at most as many as there is room for, without those
    that rest. A team has one grading at a time. A queue is looked at only if there is
    room, since each worker asks several times a second."""
    if room <= 0:
        return []
    numbers = [turn.number for turn in queue(resting) if not turn.earlier][:room]
    gradings = Grading.objects.in_bulk(numbers)
    return [gradings[number] for number in numbers]


def queue(resting: Collection[int] = ()) -> List[Turn]:
    """Returns the turns of all waiting gradings without those that rest, the next first.
    Teams whose last grading was shortest come first, so that hanging programs delay few
    others; then the teams graded least recently."""
    earlier = collections.Counter(
        Grading.objects.filter(state__in=machine.ACTIVE).values_list(
            "hand_in__team", flat=True
        )
    )
    waiting = list(
        Grading.objects.filter(state=machine.WAITING)
        .exclude(pk__in=resting)
        .order_by("pk")
        .values_list("hand_in__team", "pk")
    )
    last = last_gradings_of_waiting_teams() if waiting else {}
    never = (datetime.timedelta(0), timezone.now() - RECENT)
    turns = []
    for team, number in waiting:
        turns.append(Turn(earlier[team], *last.get(team, never), number))
        earlier[team] += 1
    return sorted(turns)


def place_of(grading: Grading) -> Optional[int]:
    """Returns the place of a waiting grading in the queue, 1 for the next."""
    if grading.state != machine.WAITING:
        return None
    numbers = [turn.number for turn in queue()]
    return numbers.index(grading.pk) + 1 if grading.pk in numbers else None


def last_gradings_of_waiting_teams() -> (
    Dict[int, Tuple[datetime.timedelta, datetime.datetime]]
):
    """Returns how long the last recent grading of each team that waits for another took,
    and when it ended."""
    teams = Grading.objects.filter(state=machine.WAITING).values("hand_in__team")
    rows = Grading.objects.filter(
        ended__gt=timezone.now() - RECENT, begun__isnull=False, hand_in__team__in=teams
    ).order_by("ended")
    return {
        team: (end - begin, end)
        for team, begin, end in rows.values_list("hand_in__team", "begun", "ended")
    }
