"""Reads the file of a hall, which KEYS describes, and checks it."""
import datetime
import functools
import pathlib
import re
import zoneinfo
from typing import Any, Dict, List, NamedTuple, Optional, Sequence, Tuple, Union

from arena_lab.course.course_files import check_command
from arena_lab.hall.sign_on.rules import SignOnRules, sign_on_of
from arena_lab.play.wasm_modules import file_in, is_module
from arena_lab.rules import networks
from arena_lab.rules.limits import MAX_BOARD, MAX_QUOTA, SMALL_BOARD, SMALL_QUOTA
from arena_lab.rules.networks import Network, NetworkError
from arena_lab.support import fields
from arena_lab.support.faults import ArenaError
from arena_lab.support.fields import (
    Field,
    FileFormatError,
    is_count,
    is_number,
    is_text,
    is_texts,
)
from arena_lab.sweep.grid import AGENTS, DEGREE, MAY_BE_TEXT

KEYS = """A hall's file has the teams of a course, the networks on which they practise, and how
their programs are graded.

    title = "Black hole search, autumn term"
    host = "arena.example.org"

    [[team]]
    name = "amber"

    [[network]]
    name = "ring of 16"
    network = "ring:16"

    title         what the hall is called.
    host          the name or address of this machine to which teams connect their agents ("127.0.0.1").
    address       the address on which servers of matches listen ("127.0.0.1"; "0.0.0.0" is every one).
    ports         the first and the last port for servers of matches ([4100, 4199]).
    names         other names of the machine by which pages may be asked for ([]).
    https         true if a server such as nginx or Caddy stands before the hall and encrypts (false).
    zone          the time zone of all times ("UTC").
    language      the language of the pages unless a reader asks for another: "en", "de" or "fr" ("en").
    database      "postgresql://USER@HOST/NAME" in the place of a file of SQLite.
    minutes       how long a match goes on at most once it has begun (8).
    gather        how many seconds a match waits for its agents (60).
    pause         how many milliseconds pass before each turn (5).
    public        true if everybody may see the standings, and not only who has logged in (false).
    freeze        the time from which on the standings do not change for teams, such as "2026-12-18 18:00".

Each [[team]] has these keys:

    name          1 to 16 characters out of a to z, 0 to 9 and -; the first one is no -.
    display       a name of any script for pages (the name).
    members       who signs in as this team by [sign_on], such as ["ada@example.edu"] ([]).

Each [[network]] has these keys:

    name          what teams call it.
    network       the network, as --network takes it.
    agents        how many agents a team has, or "degree" for one more than the greatest degree (2).
    holes         how many black holes there are (1).
    quota         how many commands an agent may use (1000).
    board         how many bytes a whiteboard holds (4096).
    labels        "drawn" if each match numbers the ports anew, or "fixed" ("drawn").
    map           true if teams get the network and the home base (false).

    [limits]
    at_once       how many matches of a team wait or run at a time (2).
    a_day         how many matches of practice a team has a day (300).
    requests      how many requests a team makes a minute (120).
    disk          how many megabytes the files of a team take (200).
    matches       how many matches are played at a time (64).
    gradings      how many programs are graded at a time (2).

    [hand_ins]
    command       the words that start the program of one agent, or its module, as in a course of `grade`.
    file          the name of a file that is handed in by itself ("agent.py", or the module that `command` names).
    networks      networks on which each hand-in is graded at once, as --network takes them.
    secret        networks on which the last hand-in of each team is graded after the deadline, by one draw for all
                  teams (the same as `networks`).
    deadline      a time, such as "2026-12-18 18:00"; after it nothing is taken, and the last hand-ins are graded.
    a_day         how many hand-ins a team has a day (10).
    agents        how many agents a team has (as in practice on that network, or 2).
    packages      packages of Debian that programs see, such as ["gcc", "libc6-dev", "make"] ([]).
    holes, schedulers, seeds
                  as in a course of `grade` (2, ["fair", "slow-agents"], 2).

    [editor]
    languages     the kits with which teams begin in the browser: "python", "javascript", "c", "cpp" (["python"]).
    seconds       how long a match that is tried there may take (20).
    search        how long a check or a search through all schedules may take (60).
    trials        how many programs are tried at a time (2).
    a_day         how many programs a team tries a day (500).
    guests        how many people without a token write and try at a time (0); they hand in nothing.
    class_word    a word of 8 characters or more: who opens /class/WORD begins as a guest of your class ("", nobody).
    class_guests  how many guests of your class there are at a time, beside others (40).

    [sign_on]
    issuer        the provider of OpenID Connect, such as "https://login.example.edu/realms/uni".
    client        the name of the hall there; its secret stands in the file sign-on.txt of the hall's folder.
    name          what the provider is called on the page ("your university").
    claim         what names a person ("email", which has to be verified).
    team_claim    a claim that names a person's team, if no team has the person among its members ("").
    new_teams     how many teams are made for people who have none, when each signs in first (0).
    teacher_claim, teacher_value
                  a claim and its value, or one of its values, by which a person is a teacher ("").

Hand-ins are graded by the agents, quota, whiteboards and labels that practice has on the same network.

Without [hand_ins] nothing is handed in, and nobody is ranked; without [editor] nobody
writes in the browser; without [sign_on] teams log in by tokens alone. Times are of the zone.
"""
LANGUAGES = ("en", "de", "fr")
# kits that may be written in the browser, and the editor there, of Debian's package
KITS = ("python", "javascript", "c", "cpp")
CODEMIRROR = pathlib.Path("/usr/share/javascript/codemirror")
PACKAGE = "libjs-codemirror"
DRAWN = "drawn"
FIXED = "fixed"
# a table of earlier files, which is passed over
RATED = "rated"
TEAM = re.compile("[a-z0-9][a-z0-9-]{0,15}")
CLASS_WORD = re.compile(r"([A-Za-z0-9_-]{8,60})?")
TIMES = 'a time such as "2026-12-18 18:00"'


def is_ports(value: Any) -> bool:
    is_pair = isinstance(value, list) and len(value) == 2 and all(map(is_count, value))
    return is_pair and value[0] <= value[1] < 65_536


def is_zone(value: Any) -> bool:
    return isinstance(value, str) and value in zoneinfo.available_timezones() | {"UTC"}


TIME = Field(
    lambda value: value is None or isinstance(value, (str, datetime.datetime)),
    TIMES,
    None,
)
# keys copied to the hall unchanged
PLAIN = {
    "title": fields.TEXT,
    "host": fields.TEXT._replace(default="127.0.0.1"),
    "address": fields.TEXT._replace(default="127.0.0.1"),
    "names": fields.MAYBE_NAMES,
    "https": fields.FLAG,
    "zone": Field(is_zone, 'a time zone such as "Europe/Berlin"', "UTC"),
    "language": fields.one_of(LANGUAGES, "en"),
    "database": fields.TEXT._replace(default="sqlite"),
    "minutes": fields.count(8),
    "gather": fields.count(60),
    "pause": fields.count(5),
    "public": fields.FLAG,
}
FIELDS = {
    **PLAIN,
    "ports": Field(
        is_ports, "a first and a last port, such as [4100, 4199]", [4100, 4199]
    ),
    "freeze": TIME,
    "team": fields.tables("team", []),
    "network": fields.tables("network"),
    RATED: Field(lambda value: True, "", None),
    "limits": fields.table("limits", {}),
    "hand_ins": fields.table("hand_ins", None),
    "editor": fields.table("editor", None),
    "sign_on": fields.table("sign_on", None),
}
LIMITS = {
    "at_once": fields.count(2),
    "a_day": fields.count(300),
    "requests": fields.count(120),
    "disk": fields.count(200),
    "matches": fields.count(64),
    "gradings": fields.count(2),
}
MEMBER = {
    "name": Field(
        lambda value: isinstance(value, str) and bool(TEAM.fullmatch(value)),
        "given for each team, of 1 to 16 "
        "characters out of a to z, 0 to 9 and -, which does not come first",
    ),
    "display": MAY_BE_TEXT,
    "members": fields.MAYBE_NAMES,
}
HOLES = "a whole number less than the nodes"
NET = {
    "name": Field(
        lambda value: is_text(value) and len(value) <= 60,
        "given for each network: a text of at most 60 characters, "
        'such as "ring of 16"',
    ),
    "agents": AGENTS,
    "holes": Field(is_number, HOLES, 1),
    "quota": fields.up_to(MAX_QUOTA, SMALL_QUOTA),
    "board": fields.up_to(MAX_BOARD, SMALL_BOARD, 0),
    "labels": Field(
        lambda value: value in (DRAWN, FIXED), f'"{DRAWN}" or "{FIXED}"', DRAWN
    ),
    "map": fields.FLAG,
}
HAND_INS = {
    "command": Field(
        is_text, "given in [hand_ins]: the words that start the program of one agent"
    ),
    "file": Field(
        lambda value: is_text(value) and bool(re.fullmatch(r"\w[\w.-]{0,60}", value)),
        "the name of a file",
        "agent.py",
    ),
    "networks": Field(is_texts, 'a list of names, such as ["ring:8"]'),
    "secret": fields.MAYBE_NAMES,
    "deadline": TIME,
    "a_day": fields.count(10),
    "agents": fields.maybe(AGENTS),
    "packages": fields.MAYBE_NAMES,
    "holes": fields.count(2),
    "schedulers": Field(is_texts, "a list of names", ["fair", "slow-agents"]),
    "seeds": fields.count(2),
}


EDITOR = {
    "languages": Field(
        lambda value: is_texts(value) and set(value) <= set(KITS),
        f"a list of {', '.join(KITS)}",
        ["python"],
    ),
    "seconds": fields.count(20),
    "search": fields.count(60),
    "trials": fields.count(2),
    "a_day": fields.count(500),
    "guests": Field(is_number, "a whole number", 0),
    "class_word": Field(
        lambda value: isinstance(value, str) and bool(CLASS_WORD.fullmatch(value)),
        "8 characters or more out of letters, digits, - and _",
        "",
    ),
    "class_guests": fields.count(40),
}


class HallError(ArenaError):
    """A file is no hall; says what to change."""


class Member(NamedTuple):
    """A team: its name, the name for display, and who signs in as it."""

    name: str
    display: str
    members: Sequence[str] = ()


class Net(NamedTuple):
    """A network of the hall: its name, the word or file that defines it, and the
    settings of draws."""

    name: str
    word: str
    network: Network
    agents: int
    holes: int
    quota: int
    board: int
    labels: str
    has_map: bool


class TeamLimits(NamedTuple):
    """Limits on a team's resources and on concurrent work."""

    at_once: int
    a_day: int
    requests: int
    disk: int
    matches: int
    gradings: int


class HandInRules(NamedTuple):
    """How programs are handed in, and graded."""

    command: str
    file: str
    # the names of networks on pages, by the words that name them to `grade`
    networks: Dict[str, str]
    secret: Dict[str, str]
    deadline: Optional[datetime.datetime]
    a_day: int
    agents: Union[None, int, str]
    packages: List[str]
    holes: int
    schedulers: List[str]
    seeds: int


class EditorRules(NamedTuple):
    """Limits on the browser editor: kits, seconds, concurrent programs, and trials per
    day."""

    languages: List[str]
    seconds: int
    search: int
    trials: int
    a_day: int
    guests: int
    class_word: str = ""
    class_guests: int = 40


class Hall(NamedTuple):
    """The contents of a hall's file."""

    path: pathlib.Path
    text: str
    title: str
    host: str
    address: str
    ports: Tuple[int, int]
    names: List[str]
    https: bool
    zone: str
    language: str
    database: str
    minutes: int
    gather: int
    pause: int
    public: bool
    freeze: Optional[datetime.datetime]
    teams: List[Member]
    nets: Dict[str, Net]
    limits: TeamLimits
    hand_ins: Optional[HandInRules]
    editor: Optional[EditorRules]
    sign_on: Optional[SignOnRules]
    # messages for the teacher at the start of the hall
    notes: List[str]

    @property
    def turns(self) -> int:
        """Returns how many turns a match has."""
        return self.minutes * 60_000 // self.pause


def read_hall(path: pathlib.Path, copy: Optional[pathlib.Path] = None) -> Hall:
    """Reads the hall of a file, or of a saved copy of the file."""
    try:
        return hall_of((copy or path).read_text(encoding="utf-8"), path.resolve())
    except FileNotFoundError:
        raise HallError(
            f"{path}: there is no such file: `arena-lab hall new FILE` writes one"
        ) from None
    except UnicodeDecodeError:
        raise HallError(f"{path}: it is no text in UTF-8") from None
    except (FileFormatError, NetworkError) as fault:
        raise HallError(f"{path}: {fault}") from None


@functools.lru_cache(maxsize=4)
def hall_of(text: str, path: pathlib.Path) -> Hall:
    """The hall that a text says."""
    table = fields.table_of(text)
    values = fields.values_of(table, FIELDS, "a hall")
    nets = nets_of(values["network"], path.parent)
    limits = TeamLimits(**fields.values_of(values["limits"], LIMITS, "limits"))
    check_ports(values["ports"], limits)
    zone = values["zone"]
    return Hall(
        **{name: values[name] for name in PLAIN},
        path=path,
        text=text,
        ports=(values["ports"][0], values["ports"][1]),
        freeze=time_of(values, "freeze", zone),
        teams=teams_of(values["team"]),
        nets=nets,
        limits=limits,
        hand_ins=None
        if values["hand_ins"] is None
        else hand_ins_of(values["hand_ins"], zone, path.parent),
        editor=None
        if values["editor"] is None
        else EditorRules(**fields.values_of(values["editor"], EDITOR, "editor")),
        sign_on=None if values["sign_on"] is None else sign_on_of(values["sign_on"]),
        notes=notes_of(table),
    )


def notes_of(table: Dict[str, Any]) -> List[str]:
    """Returns notes about settings of the file that have no effect."""
    notes = []
    if RATED in table:
        notes.append(
            f"[{RATED}] is passed over: matches over sockets are practice, and only hand-ins are ranked"
        )
    if "hand_ins" in table and "deadline" not in table["hand_ins"]:
        notes.append(
            "[hand_ins] has no deadline: no hand-in is graded by the secret draw until you write one"
        )
    return notes


def check_ports(ports: Sequence[int], limits: TeamLimits) -> None:
    """Refuses a hall that could play more matches than it has ports for."""
    count = ports[1] - ports[0] + 1
    if limits.matches > count:
        raise FileFormatError(
            f"[limits] has matches = {limits.matches}, and there are only {count} ports: name more by "
            "ports"
        )


def time_of(table: Dict[str, Any], name: str, zone: str) -> Optional[datetime.datetime]:
    """A time of the zone."""
    try:
        time = (
            datetime.datetime.fromisoformat(table[name])
            if isinstance(table[name], str)
            else table[name]
        )
    except ValueError:
        raise FileFormatError(f"{name} must be {TIMES}") from None
    return (
        time
        if time is None or time.tzinfo is not None
        else time.replace(tzinfo=zoneinfo.ZoneInfo(zone))
    )


def teams_of(tables: List[Dict[str, Any]]) -> List[Member]:
    """Parses the tables of teams. There may be none, because the teacher can add teams
    later."""
    rows = fields.unlike(
        [fields.values_of(table, MEMBER, "a team") for table in tables], "team"
    )
    return [
        Member(row["name"], row["display"] or row["name"], tuple(row["members"]))
        for row in rows
    ]


def nets_of(tables: List[Dict[str, Any]], folder: pathlib.Path) -> Dict[str, Net]:
    """The networks by their names."""
    rows = []
    for table in tables:
        word = Field(is_text, f"given for {table.get('name')}, such as \"ring:16\"")
        rows.append(fields.values_of(table, {**NET, "network": word}, "a network"))
    return {row["name"]: net_of(row, folder) for row in fields.unlike(rows, "network")}


def net_of(row: Dict[str, Any], folder: pathlib.Path) -> Net:
    """The network that a [[network]] table says."""
    word = word_of(row["network"], folder)
    agents = row["agents"]
    network = networks.check_biconnected(word)
    if row["holes"] >= network.nodes:
        raise FileFormatError(f"holes must be {HOLES}")
    return Net(
        row["name"],
        word,
        network,
        max(network.degrees()) + 1 if agents == DEGREE else agents,
        row["holes"],
        row["quota"],
        row["board"],
        row["labels"],
        row["map"],
    )


def word_of(name: str, folder: pathlib.Path) -> str:
    """The word that names a network wherever one stands. Its file is looked for in the
    folder of the course."""
    return name if ":" in name else str(folder / name)


def hand_ins_of(table: Dict[str, Any], zone: str, folder: pathlib.Path) -> HandInRules:
    """How programs are handed in."""
    command = str(table.get("command"))
    default = {"file": file_in(command)} if is_module(command) else {}
    values = fields.values_of({**default, **table}, HAND_INS, "hand_ins")
    check_command(values["command"], "of the hall")
    public = {word_of(name, folder): name for name in values["networks"]}
    secret = {word_of(name, folder): name for name in values["secret"]}
    for word in {**public, **secret}:
        networks.check_biconnected(word)
    rules: Dict[str, Any] = {
        **values,
        "networks": public,
        "secret": secret or public,
        "deadline": time_of(values, "deadline", zone),
    }
    return HandInRules(**rules)
