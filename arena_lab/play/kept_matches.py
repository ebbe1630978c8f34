"""Finds: a schedule worth keeping, played by the program and written with all that
shows it."""
import contextlib
import pathlib
import tempfile
from typing import List, Optional, Sequence, Tuple

import arena_lab
from arena_lab.pages.match_page import write_page
from arena_lab.play.matches import PlayedMatch, play
from arena_lab.play.schedulers import (
    ScheduleFollower,
    ImpossibleError,
    Scheduler,
    recorded_scheduler,
)
from arena_lab.play.schedules import Schedule, schedule_of, text_of
from arena_lab.play.teams import Together
from arena_lab.rules.engines import Engine, Program, program_verdict, name_of
from arena_lab.rules.fixtures import write_tournament
from arena_lab.rules.rehearsal import Rehearsal
from arena_lab.support import built
from arena_lab.support.missing import MissingPackageError

# default folder of kept matches
FOLDER = pathlib.Path("out/find")
SCHEDULE = "schedule.txt"
SCRIPT = "script.txt"
REPLAY = "match0.jsonl"
PAGE = "match0.html"
# of each program what it wrote to standard error, which is no part of the match and may
# be another each time
ERRORS = "errors"
# file of the messages about rejected lines
REFUSED_FILE = "refused.txt"


def engine_of(schedule: Schedule, program: Optional[str]) -> Engine:
    """The program as an engine, or the Python model if no program is given."""
    if program:
        return Program(schedule.fixture, program)
    return Rehearsal(schedule.fixture)


def played_under(
    scheduler: Scheduler, schedule: Schedule, program: Optional[str]
) -> Tuple[Schedule, PlayedMatch]:
    """The match of a schedule under this scheduler, whatever the schedule's choices
    are, and the schedule with the choices that were made."""
    team = Together(schedule.agents, schedule.fixture, schedule.limit)
    match = play(engine_of(schedule, program), team, scheduler, schedule.fixture)
    return schedule._replace(choices=match.choices), match


def played_again(schedule: Schedule, program: Optional[str]) -> PlayedMatch:
    """The schedule, played."""
    _, match = played_under(recorded_scheduler(schedule.choices), schedule, program)
    count = len(match.choices)
    if count < len(schedule.choices):
        surplus = schedule.choices[count]
        raise ImpossibleError(
            f"choice {count + 1} is `{surplus.do} {surplus.agent}`, and nothing may happen there"
        )
    return match


def followed_again(
    schedule: Schedule, program: Optional[str]
) -> Tuple[Schedule, PlayedMatch, ScheduleFollower]:
    """The match, in which the schedule is followed as far as the agents go along, and
    what comes then is fair."""
    following = ScheduleFollower(schedule.choices)
    anew = schedule_of(
        schedule.fixture,
        schedule.agents,
        f"{schedule.origin}, followed",
        [],
        schedule.limit,
    )
    return (*played_under(following, anew, program), following)


def write_find(
    folder: pathlib.Path,
    schedule: Schedule,
    match: PlayedMatch,
    program: Optional[str],
) -> List[str]:
    """Writes a played match: schedule, tournament and script for `arena rehearse`,
    replay, and page. Returns the lines to print."""
    folder.mkdir(parents=True, exist_ok=True)
    (folder / SCHEDULE).write_text(text_of(schedule), encoding="utf-8")
    write_tournament(schedule.fixture, folder)
    (folder / SCRIPT).write_bytes(b"".join(line + b"\n" for line in match.script))
    (folder / REPLAY).write_bytes(match.replay)
    for number, text in match.errors.items():
        (folder / f"{ERRORS}{number}.txt").write_text(text, encoding="utf-8")
    write_refused(folder / REFUSED_FILE, match)
    lines = [
        f"{folder}: {len(schedule.choices)} choices; again by `{arena_lab.command_name()} replay {folder}`"
    ]
    if program is None:
        lines.append(
            "the Python model played it, which proves nothing: the program was not asked"
        )
        return lines + written_page(folder, None, schedule.title(), match.refusals)
    by = "" if name_of(program) == built.PROGRAM else f" (by {name_of(program)})"
    lines.append(
        f"the program's verdict: {program_verdict(program, folder / REPLAY)}{by}"
    )
    return lines + written_page(folder, program, schedule.title(), match.refusals)


def write_refused(path: pathlib.Path, match: PlayedMatch) -> None:
    """Writes the messages about rejected lines; no file if there are none."""
    if match.refusals:
        path.write_text(
            "".join(f"{refusal}\n" for refusal in match.refusals), encoding="utf-8"
        )


def lines_in(path: pathlib.Path) -> List[str]:
    """Returns the lines of a text file, or [] if it does not exist."""
    return path.read_text(encoding="utf-8").splitlines() if path.is_file() else []


def changed_in(
    folder: pathlib.Path,
    schedule: Schedule,
    match: PlayedMatch,
    program: Optional[str],
) -> List[str]:
    """Returns the files of a kept match that differ from what would be written now. The
    page and the rejected lines may be missing."""
    with tempfile.TemporaryDirectory() as name:
        fresh = pathlib.Path(name)
        write_find(fresh, schedule, match, program)
        names = sorted(
            path.name
            for path in fresh.iterdir()
            if path.name not in (SCHEDULE, REPLAY) and not path.name.startswith(ERRORS)
        )
        return [
            name
            for name in names
            if bytes_of(folder / name) != bytes_of(fresh / name)
            and (name not in (PAGE, REFUSED_FILE) or (folder / name).exists())
        ]


def bytes_of(path: pathlib.Path) -> Optional[bytes]:
    """Returns the bytes of a file, or None if it does not exist."""
    return path.read_bytes() if path.exists() else None


def keep(
    folder: pathlib.Path, schedule: Schedule, program: Optional[str]
) -> PlayedMatch:
    """Replays a schedule, writes the match, and prints where."""
    match = played_again(schedule, program)
    for fault in [*match.faults, *match.refusals]:
        print(fault)
    print("\n".join(write_find(folder, schedule, match, program)))
    return match


def written_page(
    folder: pathlib.Path, program: Optional[str], title: str, refusals: Sequence[str]
) -> List[str]:
    """Writes the page, if what lays it out is installed."""
    try:
        write_page(
            program, folder / REPLAY, folder / PAGE, title=title, refusals=refusals
        )
    except MissingPackageError as fault:
        with contextlib.suppress(FileNotFoundError):
            (folder / PAGE).unlink()
        return [f"no page was written: {fault}"]
    return [f"watch it: {folder / PAGE}"]
