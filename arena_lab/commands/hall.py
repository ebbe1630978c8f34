"""Serves a hall, which stays up for a term: teams practise there, and hand in programs,
by which they are ranked.

    ./arena-lab hall new COURSE.toml              writes the file of a course, to be changed
    ./arena-lab hall COURSE.toml                  serves its hall on http://127.0.0.1:8000/
    ./arena-lab hall keys COURSE.toml             draws tokens for teams that have none, and writes their key sheets
    ./arena-lab hall password COURSE.toml         sets the teacher's password, which it asks for or draws
    ./arena-lab hall contest COURSE.toml --networks NAME .. --start 18:00 --minutes 90 --freeze 19:00
                                                  plans a contest in which teams hand in programs for these networks
    ./arena-lab hall worker COURSE.toml           plays and grades for a hall that another machine serves
    ./arena-lab hall backup COURSE.toml FILE      writes all that the hall has into an archive, while it is served
    ./arena-lab hall restore COURSE.toml FILE     makes the hall of an archive, in the database that the file names

A team logs in by the token of its key sheet, or sends it with each request as a script.
To practise it asks for a match on a network of the course, gets a host, a port and
keys, and connects its agents from its own machine. Each match has a server of its own,
`arena serve`. Programs that teams hand in are graded in sandboxes, and ranked. The hall
keeps its folder, COURSE.hall, beside the file; nobody else may read it.

docs/HALL.md says more, for teachers. It needs Debian's packages python3-django,
python3-djangorestframework, python3-waitress and python3-whitenoise.
"""
import argparse
import contextlib
import datetime
import functools
import getpass
import os
import pathlib
import sys
from typing import Any, Callable, Dict

from arena_lab.command_line.arguments import add_program, at_least_one, not_negative
from arena_lab.hall import backup, entry, place, serving
from arena_lab.hall.hall_files import (
    CODEMIRROR,
    KEYS,
    PACKAGE,
    Hall,
    HallError,
    is_zone,
    read_hall,
)
from arena_lab.hall.place import HallFolder, folder_of
from arena_lab.hall.sign_on.rules import secret_in
from arena_lab.rules.engines import program_at
from arena_lab.sandbox import sandboxes, system_copy
from arena_lab.sandbox.sandboxes import Isolation
from arena_lab.sandbox.system_copy import CopyError
from arena_lab.support.missing import check
from arena_lab.support.ports import listen

PACKAGES = ("django", "rest_framework", "waitress", "whitenoise")
__doc__ = f"{__doc__}\n{KEYS}"
ACTIONS = ("new", "serve", "worker", "keys", "password", "contest", "backup", "restore")
WEAK_SANDBOX = "--allow-weak-sandbox"
SHEET = "keys.csv"
LOCAL_TIME = "/etc/localtime"
# how far off the deadline of a new course is
A_TERM = datetime.timedelta(weeks=16)


def add_arguments(parser: argparse.ArgumentParser) -> None:
    """Adds the arguments of `hall`."""
    parser.add_argument(
        "words",
        metavar="WORDS",
        nargs="+",
        help="what to do (serve), the file of the "
        "course, and for `backup` and `restore` the archive",
    )
    parser.add_argument(
        "--folder",
        metavar="FOLDER",
        type=pathlib.Path,
        help="where the hall keeps everything (the " "file's name with .hall)",
    )
    parser.add_argument(
        "--port",
        metavar="N",
        type=at_least_one,
        default=8000,
        help="the port of the pages (8000)",
    )
    parser.add_argument(
        "--address",
        metavar="A",
        default="127.0.0.1",
        help="the address of the pages (127.0.0.1); "
        "others reach them by nginx or Caddy, which encrypt: docs/HALL.md has both files",
    )
    parser.add_argument(
        "--workers",
        metavar="N",
        type=not_negative,
        default=2,
        help="how many processes play matches "
        "and grade programs (2; 0 if other machines do)",
    )
    parser.add_argument(
        WEAK_SANDBOX,
        action="store_true",
        help="take hand-ins although this machine puts up no "
        "walls between programs: they can then read what this user can, also the hall",
    )
    parser.add_argument(
        "--aside",
        action="store_true",
        help="restore although there is a hall: it is moved to a folder beside it, with its rows",
    )
    parser.add_argument(
        "--seconds", metavar="N", type=float, help="end after this number of seconds"
    )
    group = parser.add_argument_group("contest")
    group.add_argument(
        "--name",
        metavar="NAME",
        default="contest",
        help="what the contest is called (contest)",
    )
    group.add_argument(
        "--networks",
        metavar="NAME",
        nargs="+",
        default=[],
        help="the networks of the contest, as the " "course names them",
    )
    group.add_argument(
        "--start",
        metavar="HH:MM",
        help='when it begins today, or a whole time such as "2026-12-18 '
        '18:00" (now)',
    )
    group.add_argument(
        "--minutes",
        metavar="N",
        type=at_least_one,
        default=45,
        help="how long it goes on (45)",
    )
    group.add_argument(
        "--freeze",
        metavar="HH:MM",
        help="from when on its table does not change for teams (never)",
    )
    add_program(parser)


def run(args: argparse.Namespace) -> int:
    action, *operands = (
        args.words if args.words[0] in ACTIONS else ["serve", *args.words]
    )
    operand_count = 2 if action in ("backup", "restore") else 1
    if len(operands) != operand_count:
        raise HallError(
            f"`hall {action}` takes {'COURSE.toml and the archive' if operand_count == 2 else 'COURSE.toml'}"
        )
    course = pathlib.Path(operands[0])
    if action == "new":
        return write_new(course)
    check(*PACKAGES)
    folder = (args.folder or folder_of(course)).resolve()
    if action == "serve":
        return serve(
            args,
            HallFolder(folder, course.resolve(), program_at(args.program, args.needs)),
            prepare,
            functools.partial(
                report,
                f"hall http://{args.address}:{args.port}/ (the teacher's pages: /teacher/)",
            ),
        )
    if action == "restore":
        backup.take_course(pathlib.Path(operands[1]), course)
    hall = read_hall(course)
    if action == "worker":
        return work(args, hall, folder)
    if action == "restore":
        of = HallFolder(folder, course.resolve(), None)
        return restore(of, pathlib.Path(operands[1]), args.aside)
    begin(place.at(folder))
    try:
        if action == "backup":
            return report(
                f"wrote {backup.write(place.at(folder), pathlib.Path(operands[1]))}"
            )
        return HALL_ACTIONS[action](args, hall, folder)
    finally:
        place.leave(folder, folder.stat())


def report(line: str) -> int:
    print(line, flush=True)
    return 0


def write_new(course: pathlib.Path) -> int:
    """Writes the file of a course."""
    if course.exists():
        raise HallError(f"{course}: there is such a file already")
    text = (pathlib.Path(place.__file__).parent / "new.toml").read_text(
        encoding="utf-8"
    )
    deadline = datetime.date.today() + A_TERM
    text = text.replace("2099-12-31", str(deadline)).replace('"UTC"', f'"{own_zone()}"')
    course.write_text(text, encoding="utf-8")
    return report(
        f"wrote {course}: change it, and serve it by `arena-lab hall {course}`"
    )


def own_zone() -> str:
    """The time zone of this machine, if it says which."""
    name = os.path.realpath(LOCAL_TIME).partition("/zoneinfo/")[2]
    return name if is_zone(name) else "UTC"


def begin(of: HallFolder) -> None:
    """Makes this process one of the hall."""
    from django.core.management import call_command

    entry.begin(str(of.folder))
    call_command("migrate", verbosity=0, interactive=False)
    # sessions whose time is up
    call_command("clearsessions")


def check_walls(args: argparse.Namespace, hall: Hall) -> None:
    """Refuses to take programs of strangers where nothing keeps them from the hall."""
    takes = hall.hand_ins is not None or hall.editor is not None
    if takes and sandboxes.strongest() is not Isolation.ALL:
        if not args.allow_weak_sandbox:
            raise HallError(
                f"{sandboxes.weakness()}: programs of teams could read the hall. Remove [hand_ins] and "
                f"[editor], or say {WEAK_SANDBOX} if you trust all teams"
            )
        print(
            f"hall: {sandboxes.weakness()}; {sandboxes.strongest().value}",
            file=sys.stderr,
        )


def check_copy(hall: Hall) -> None:
    """Says at the start if gradings get no copy of the system, without which packages
    that the course names cannot be seen."""
    rules = hall.hand_ins
    if rules is None or sandboxes.strongest() is not Isolation.ALL:
        return
    try:
        system_copy.check_copy([rules.command], rules.packages)
    except CopyError as fault:
        if rules.packages:
            raise HallError(f"[hand_ins] names packages: {fault}") from None
        place.log_line(f"{sandboxes.SEES_DISK}: {fault}")


def check_editor(hall: Hall) -> None:
    """Raises HallError if the hall offers its editor page and Debian's editor is not
    installed."""
    if hall.editor is not None and not CODEMIRROR.is_dir():
        raise HallError(
            f"[editor] needs Debian's {PACKAGE}: `apt-get install {PACKAGE}`, or remove it"
        )


def check_sign_on(hall: Hall, of: HallFolder) -> None:
    """Refuses a hall whose people could not sign in."""
    if hall.sign_on is not None:
        check("authlib", "requests")
        secret_in(of.folder)


def restore(of: HallFolder, archive: pathlib.Path, may_move: bool) -> int:
    """Restores a hall that nobody serves."""
    owner = (of.folder if of.folder.exists() else of.folder.parent).stat()
    with serving.alone(of) if of.folder.exists() else contextlib.nullcontext():
        aside = backup.restore(of, archive, may_move)
    place.leave(of.folder, owner)
    text = f"; what was there before is in {aside}" if aside else ""
    return report(
        f"{of.folder} is as it stood in {archive}{text}: serve it by `arena-lab hall {of.course}`"
    )


def serve(
    args: argparse.Namespace,
    of: HallFolder,
    prepare: Callable[[Hall, HallFolder], None],
    announce: Callable[[], object],
) -> int:
    """Serves a hall after a function has prepared its database, and announces it once
    it answers."""
    os.umask(0o077)
    hall = of.to_serve()
    check_walls(args, hall)
    check_copy(hall)
    check_editor(hall)
    of.make()
    check_sign_on(hall, of)
    with serving.alone(of), listen(args.address, args.port) as listener:
        of.write(hall)
        for line in hall.notes:
            place.log_line(line)
        begin(of)
        place.remove_left(of.folder)
        prepare(hall, of)
        serving.serve(
            of,
            serving.Options(args.workers, listener, announce),
            args.seconds,
        )
    return 0


def work(args: argparse.Namespace, hall: Hall, folder: pathlib.Path) -> int:
    """Workers on another machine than the pages, or besides those that they have."""
    if hall.database == "sqlite":
        raise HallError(
            "workers on other machines need PostgreSQL: `database` in the course's file, and the same folder"
        )
    check_walls(args, hall)
    check_copy(hall)
    os.umask(0o077)
    serving.serve(place.at(folder), serving.Options(args.workers), args.seconds)
    return 0


def prepare(hall: Hall, of: HallFolder) -> None:
    """Makes teams, tokens and the teacher's password, where they are not there yet."""
    from arena_lab.hall import keys

    keys.sync(hall)
    if keys.draw_missing(of.folder / SHEET):
        print(f"hall: give each team its token out of {of.folder / SHEET}", flush=True)
    if not keys.has_password():
        place.write_whole(of.folder / place.PASSWORD, keys.set_password() + "\n")
        print(
            f"hall: log in as teacher by the password in {of.folder / place.PASSWORD}; `hall password` sets another",
            flush=True,
        )


def draw_keys(args: argparse.Namespace, hall: Hall, folder: pathlib.Path) -> int:
    from arena_lab.hall import keys

    keys.sync(hall)
    count = keys.draw_missing(folder / SHEET)
    return report(f"{count} tokens were drawn; the sheets are in {folder / SHEET}")


def set_password(args: argparse.Namespace, hall: Hall, folder: pathlib.Path) -> int:
    from arena_lab.hall import keys

    password = (
        getpass.getpass("the teacher's new password (empty: draw one): ")
        if sys.stdin.isatty()
        else ""
    )
    if password and len(password) < 10:
        raise HallError("a password has at least 10 characters")
    new_password = keys.set_password(password)
    if password:
        (folder / place.PASSWORD).unlink(missing_ok=True)
        return report("the password is set")
    place.write_whole(folder / place.PASSWORD, new_password + "\n")
    return report(f"the password is in {folder / place.PASSWORD}")


def moment_of(word: str) -> Any:
    """A time that is named, of today or whole."""
    from django.utils import timezone

    try:
        if len(word) <= 5:
            hours, minutes = map(int, word.split(":"))
            return timezone.localtime().replace(
                hour=hours, minute=minutes, second=0, microsecond=0
            )
        return timezone.make_aware(datetime.datetime.fromisoformat(word))
    except ValueError:
        raise HallError(
            f'{word}: write a time as 18:00, or as "2026-12-18 18:00"'
        ) from None


def plan_contest(args: argparse.Namespace, hall: Hall, folder: pathlib.Path) -> int:
    from django.core.exceptions import ValidationError
    from django.utils import timezone

    from arena_lab.hall.handins.models import Contest

    if hall.hand_ins is None:
        raise HallError(
            "a contest is of programs that are handed in: write [hand_ins] into the course's file"
        )
    start = moment_of(args.start) if args.start else timezone.localtime()
    contest = Contest(
        name=args.name,
        networks=args.networks,
        start=start,
        end=start + datetime.timedelta(minutes=args.minutes),
        freeze=moment_of(args.freeze) if args.freeze else None,
    )
    try:
        contest.full_clean()
    except ValidationError as fault:
        raise HallError("; ".join(fault.messages)) from None
    contest.save()
    frozen = f", frozen from {contest.freeze:%H:%M}" if contest.freeze else ""
    return report(
        f"contest {contest.pk}, {contest}: from {contest.start:%Y-%m-%d %H:%M} to {contest.end:%H:%M}{frozen}, by the "
        f"clock of {hall.zone}"
    )


HALL_ACTIONS: Dict[str, Callable[[argparse.Namespace, Hall, pathlib.Path], int]] = {
    "keys": draw_keys,
    "password": set_password,
    "contest": plan_contest,
}
