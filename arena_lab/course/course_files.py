"""Reads the file of a course, which KEYS describes, and checks it."""
import functools
import os
import pathlib
import re
import secrets
import shlex
import sys
from typing import (
    Any,
    Dict,
    List,
    Mapping,
    NamedTuple,
    Optional,
    Sequence,
    Tuple,
)

from arena_lab.course.conditions import Conditions, CourseDraws, conditions_in
from arena_lab.course.points import Points, points_in
from arena_lab.play.agent_files import digests
from arena_lab.play.runners import HOST
from arena_lab.play.teams import OUTSIDE, agent_named
from arena_lab.play.wasm_modules import is_module
from arena_lab.rules import networks
from arena_lab.sandbox import calls, isolation
from arena_lab.sandbox.sandboxes import Isolation
from arena_lab.support import fields
from arena_lab.support.fields import Field, FileFormatError, is_text, is_texts
from arena_lab.sweep import grid, tables
from arena_lab.sweep.grid import Case, Grid, TeamRow

KEYS = """A course's file: the teams' programs, and the matches that each of them plays.

    title = "Black hole search, autumn term"
    networks = ["ring:8", "ring:12"]
    holes = 2
    schedulers = ["fair", "slow-agents"]
    seeds = 2

    [[team]]
    name = "amber"
    agents = 2
    files = ["teams/amber"]
    command = "python3 agent.py {host} {port} {key} {nodes}"

    title         what the league table is called
    networks      names of networks, as --network takes them, or files
    schedulers    names of schedulers, as --scheduler takes them
    holes, dark, seeds, quota, board
                  as in the file of a sweep: see `./arena-lab sweep --help`
    home          the home base; if it is absent and black holes are drawn, it is drawn for each match
    ports         "shuffled:SEED" numbers the ports of each node anew, alike in all matches, and "given" leaves them as
                  the network has them; if it is "drawn" or absent and black holes are drawn, they are numbered anew in
                  each match
    limit         how many seconds a program may take to send a line (20); a quarter of these on a network on which the
                  team has hung twice alike
    match_limit   how many seconds the lab waits for the programs of a match in all (60)
    team_limit    how many seconds all matches of a team may take (600, or 5 for each match if that is more)
    match_space   how many MB of lines the programs of a match may send and be told in all (8)
    team_space    how many MB may be written of all matches of a team (256, or 2 for each match if that is more)
    tries         how many schedules are tried to make that of a failed match small (100)
    tools         folders that programs see to read, besides the system's, such as ["/opt/jdk-21"]
    packages      packages of Debian that programs see, besides those of the programs that commands name, such as
                  ["python3-numpy"]
    agents        how many agents a team has that says nothing else, or "degree" (2)
    proc          true if programs need /proc, as those in Java do (false)
    calls         calls of the system that programs may make, besides those that their language needs, such as
                  ["splice"]; `python3 -m arena_lab.sandbox.calls --help` says how to see which a program makes

A table [conditions."NAME"] says what is otherwise on the network of this name: `agents`,
`quota`, `board`, and `ports`, which are "given" or "drawn".

Each [[team]] has a `name`, of 1 to 16 characters out of a to z, 0 to 9 and -; `agents`,
a number or "degree" for one more than the network's greatest degree (2); `files`, a
list of files and folders, whose copies each of its programs has; and `command`, the
words that start the program of one agent in the folder with the copies. In the words
{host}, {port} and {key} say where it connects and by which key it enters. {nodes},
{links} and {home} say what the team is to know of the network; {network} is the
network's file, for a team that is to have the map. Of a WebAssembly module the command
is its file with its arguments, such as "agent.wasm:{nodes}"; it is played without
walls, as it sees nothing but replies.

`--export` writes the points of teams for gradebooks; the table [points] says how they
are given.

Names of files are paths from the folder of the course's file. A hand-in is bounded, and
no link in it is followed.

All teams play the same matches, each in an order of its own. If `holes` is a number,
"by seed" or "drawn", the black hole is drawn for each match, so that one match tells
nothing of another. The draws of keys, black holes, home bases, ports, orders and seeds
of schedulers come from the course's secret. The secret is drawn at the first run and
kept in `secret.txt` beside the results. To grade again by the same draws, name that
file by --secret; if a team has handed in something else since, all is drawn anew.
"""
FILES = "files"
# seconds and MB of a match, if that is more for all matches of a team
FOR_A_MATCH = 5
SPACE_FOR_A_MATCH = 2
FIELDS = {
    "limit": fields.count(20, "seconds"),
    "match_limit": fields.count(60, "seconds"),
    "team_limit": fields.count(600, "seconds"),
    "match_space": fields.count(8, "MB"),
    "team_space": fields.count(256, "MB"),
    "tools": fields.MAYBE_NAMES._replace(expected="a list of folders"),
    "proc": fields.FLAG,
    "team": grid.FIELDS["team"],
    "agents": grid.AGENTS,
    "conditions": fields.table("conditions", {}),
    "packages": fields.MAYBE_NAMES,
    "calls": fields.MAYBE_NAMES,
    "tries": Field(fields.is_number, "a whole number", 100),
    **{name: field for name, field in grid.FIELDS.items() if name != "bound"},
    "points": fields.table("points", {}),
}
SECRET = "secret.txt"
WORDS = ("host", "port", "key", "nodes", "links", "home", "network")
NEEDED_KEYS = ("port", "key")


class CourseFile(NamedTuple):
    """A course file with its secret; `files` maps each team to the paths of its
    hand-in."""

    conditions: Conditions
    files: Dict[str, List[pathlib.Path]]
    terms: "Terms"
    tries: int
    points: Optional[Points] = None

    @property
    def grid(self) -> Grid:
        return self.conditions.grid

    def cases(self) -> List[Case]:
        """Returns all matches in the order of play. Teams come in a drawn order; each
        plays the same matches in an order of its own."""
        draws = self.conditions.draws
        cases = list(self.conditions.cases())
        cases.sort(
            key=lambda case: (
                draws.draw_digits("order", case.team.name),
                draws.draw_digits("order", case.team.name, case[1:3], case[4:]),
            )
        )
        return [case._replace(number=number) for number, case in enumerate(cases)]

    def digests(self) -> Dict[str, str]:
        """Returns the SHA-256 of the secret and of each file that determines matches.
        Hand-ins are not included."""
        course_paths = [
            self.conditions.folder / name.partition(":")[0]
            for name in [*self.grid.schedulers, *self.grid.names]
        ]
        return {
            **digests([str(path) for path in course_paths]),
            SECRET: self.conditions.draws.draw_digits("digest"),
        }


class ProgramLimits(NamedTuple):
    """Limits on programs. Seconds: for one line, for a match, and for all matches of a
    team. Megabytes: of the lines of one match, and of the files kept for a team."""

    line: int
    match: int
    team: int
    match_space: int
    team_space: int


class Terms(NamedTuple):
    """The terms of a course besides its matches: time limits, the teams' commands, the
    folders visible to programs, whether /proc is visible, and additional system
    calls."""

    limits: ProgramLimits
    commands: Dict[str, str]
    tools: Tuple[str, ...]
    has_proc: bool
    packages: Tuple[str, ...]
    calls: Tuple[str, ...]


def read_course(path: pathlib.Path, secret: str) -> CourseFile:
    """The course of a file."""
    try:
        return course_of(grid.text_in(path), path.parent, secret)
    except FileFormatError as fault:
        raise FileFormatError(f"{path}: {fault}") from None


def secret_in(
    out: pathlib.Path,
    secret_path: Optional[pathlib.Path],
    handed_in: Mapping[str, str] = {},
) -> str:
    """Returns the secret of a course: from the file given, else from the first run,
    else a new one. `handed_in` maps teams to digests of their hand-ins."""
    path = out / SECRET
    given_secret = None if secret_path is None else secret_given(secret_path, handed_in)
    if path.exists():
        kept_secret = grid.text_in(path).strip()
        if given_secret not in (None, kept_secret):
            raise FileFormatError(
                f"{path} is another secret than {secret_path}: name another folder by --out, or remove this one"
            )
        return kept_secret
    out.mkdir(parents=True, exist_ok=True)
    given_secret = given_secret or secrets.token_hex(32)
    with open(
        os.open(path, os.O_WRONLY | os.O_CREAT | os.O_EXCL, 0o600),
        "w",
        encoding="utf-8",
    ) as file:
        file.write(given_secret + "\n")
    return given_secret


def secret_given(secret_path: pathlib.Path, handed_in: Mapping[str, str]) -> str:
    """Reads the secret from a file. If results beside the file record another hand-in of
    a team, a new secret is drawn, and a line says so: the team has seen the matches that
    the old one draws."""
    secret = grid.text_in(secret_path).strip()
    if len(secret) < 16:
        raise FileFormatError(
            f"{secret_path}: a secret has at least 16 characters, or it could be guessed"
        )
    before = (
        tables.record_in(secret_path.parent).get("files", {})
        if (secret_path.parent / tables.RECORD_FILE).exists()
        else {}
    )
    changed_teams = sorted(
        name for name, digest in handed_in.items() if before.get(name, digest) != digest
    )
    if not changed_teams:
        return secret
    print(
        f"arena-lab: {changed_teams[0]} has handed in something else than when "
        f"{secret_path} was drawn: all is drawn anew",
        file=sys.stderr,
    )
    return CourseDraws(secret).draw_digits("anew", *sorted(handed_in.items()))


@functools.lru_cache(maxsize=4)
def course_of(text: str, folder: pathlib.Path, secret: str) -> CourseFile:
    """The course that a text says, whose files are looked for in the folder."""
    table = fields.table_of(text)
    values = fields.values_of(table, FIELDS, "a course")
    rows = fields.unlike(teams_in(values), "team")
    files = {row["name"]: files_of(row[FILES], row["name"], folder) for row in rows}
    teams = [
        TeamRow(row["name"], row["agents"], agent_named(OUTSIDE, row[OUTSIDE]))
        for row in rows
    ]
    draws = CourseDraws(secret)
    conditions = conditions_in(text, table, values, teams, folder, draws)
    terms = terms_in(values, rows)
    limits = for_matches(
        terms.limits, sum(1 for _ in conditions.cases()) // len(teams), table
    )
    return CourseFile(
        conditions,
        files,
        terms._replace(limits=limits),
        values["tries"],
        points_in(values["points"], conditions.grid),
    )


def for_matches(
    limits: ProgramLimits, matches: int, table: Dict[str, Any]
) -> ProgramLimits:
    """The limits where each team has this number of matches, as far as the file does
    not say what these may take."""
    time = (
        limits.team
        if "team_limit" in table
        else max(limits.team, FOR_A_MATCH * matches)
    )
    space = (
        limits.team_space
        if "team_space" in table
        else max(limits.team_space, SPACE_FOR_A_MATCH * matches)
    )
    return limits._replace(team=time, team_space=space)


def terms_in(values: Dict[str, Any], rows: Sequence[Dict[str, Any]]) -> Terms:
    """The terms that a file says, with these teams."""
    limits = (
        values[name]
        for name in ("limit", "match_limit", "team_limit", "match_space", "team_space")
    )
    return Terms(
        ProgramLimits(*limits),
        {row["name"]: row[OUTSIDE] for row in rows},
        tools_of(values["tools"]),
        values["proc"],
        tuple(values["packages"]),
        calls_of(values["calls"]),
    )


def calls_of(names: List[str]) -> Tuple[str, ...]:
    """The calls that a course allows its programs."""
    for name in names:
        why = calls.never(name)
        if why:
            raise FileFormatError(f"calls has {name}, which no course may allow: {why}")
    return tuple(names)


@functools.lru_cache(maxsize=4)
def terms_of(text: str, matches: int) -> Terms:
    """Parses the terms of a course in which each team plays `matches` matches."""
    table = fields.table_of(text)
    values = fields.values_of(table, FIELDS, "a course")
    terms = terms_in(values, teams_in(values))
    return terms._replace(limits=for_matches(terms.limits, matches, table))


def tools_of(names: List[str]) -> Tuple[str, ...]:
    """Folders that programs see, besides the system's."""
    for name in names:
        if (
            not os.path.isabs(name)
            or not os.path.isdir(name)
            or len(pathlib.Path(name).parts) < 3
        ):
            raise FileFormatError(
                f"tools has {name}, which is no folder that programs may see: write one like /opt/jdk-21"
            )
    return tuple(names)


def teams_in(values: Dict[str, Any]) -> List[Dict[str, Any]]:
    """Parses the tables of all teams."""
    return [team_in({"agents": values["agents"], **row}) for row in values["team"]]


def team_in(row: Dict[str, Any]) -> Dict[str, Any]:
    """Parses the table of a team."""
    of = f"given for team {row.get('name')}:"
    values = fields.values_of(
        row,
        {
            "name": Field(
                lambda value: isinstance(value, str)
                and bool(re.fullmatch("[a-z0-9-]{1,16}", value)),
                "given for each team, of 1 to 16 characters out of a to z, 0 to 9 and -",
            ),
            OUTSIDE: Field(
                is_text,
                f"{of} the words that start the program of one agent, such as "
                '"python3 agent.py {host} {port} {key} {nodes}"',
            ),
            FILES: Field(
                is_texts,
                f"{of} a list of its files and folders, such as [\"teams/{row.get('name')}\"]",
            ),
            "agents": grid.AGENTS,
        },
        "a team of a course",
    )
    check_command(values[OUTSIDE], values["name"])
    return values


def check_command(command: str, team: str) -> None:
    """Refuses a command whose words cannot be filled in."""
    try:
        words = shlex.split(command)
        command_text = " ".join(words).format(**{name: f"<{name}>" for name in WORDS})
    except (KeyError, IndexError, ValueError) as fault:
        why = (
            f"has {fault}"
            if isinstance(fault, KeyError)
            else f"cannot be read: {fault}"
        )
        placeholders = ", ".join(f"{{{name}}}" for name in WORDS)
        raise FileFormatError(
            f"the command of team {team} {why}; it may have {placeholders}, and a brace is written twice"
        ) from None
    for name in NEEDED_KEYS if not is_module(command) else ():
        if f"<{name}>" not in command_text:
            raise FileFormatError(
                f"the command of team {team} has no {{{name}}}: the program is to connect to {HOST} at "
                "{port}, and to enter with {key}"
            )


def files_of(names: List[str], team: str, folder: pathlib.Path) -> List[pathlib.Path]:
    """A team's files and folders."""
    paths = [folder / name for name in names]
    for name, path in zip(names, paths):
        if not path.exists():
            raise FileFormatError(
                f"files of team {team} has {name}, and there is no {path}"
            )
    return paths


def check_walls(
    strongest: Isolation, paths: Sequence[pathlib.Path], tools: Sequence[str]
) -> None:
    """Refuses a course and results that teams' programs could read in spite of the
    walls."""
    for path in paths:
        visible_folder = (
            isolation.seen_at(path, tools) if strongest is Isolation.ALL else None
        )
        if visible_folder:
            raise FileFormatError(
                f"{path}: teams' programs see {visible_folder}, to find what they run by: name a folder elsewhere"
            )


def check_networks(course: CourseFile) -> None:
    """Refuses a network on which no team can solve each match."""
    for name, network in course.grid.networks.items():
        cut = networks.cut_of(network)
        if cut:
            raise FileFormatError(
                f"networks has {name}, which is not biconnected: {cut}; take another, as no team can solve "
                "each match on it"
            )
