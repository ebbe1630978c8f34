"""The league table of a course, and a page for each team."""
import re
from typing import Any, Dict, List, Mapping, NamedTuple, Optional, Sequence, Tuple

from arena_lab.pages.parts import fill_page
from arena_lab.play import bounds, kept_matches
from arena_lab.play.repetitions import SAYS_OTHERWISE
from arena_lab.sweep.grid import Grid
from arena_lab.sweep.report import FAULTS, Row, is_solved

TABLE = "league.csv"
PAGE = "league.html"
FAILED = "failed"
SMALLEST = "smallest"
HEAD = ("place", "team", "matches", "solved", "moves", "lost")
# files kept for a match: page (if one was made), schedule and replay
FILES = {
    "watch": kept_matches.PAGE,
    "schedule": kept_matches.SCHEDULE,
    "replay": kept_matches.REPLAY,
}
MATCH_HEAD = (
    "match",
    "network",
    "black hole",
    "scheduler",
    "seed",
    "came to",
    "moves",
    "lost",
)

# how a match may fail besides by its verdict, each by what its first fault says
UNPLAYED = "not played"
LAB_FAILED = "not played, as the lab failed"
CRASHED = "crashed"
HUNG = "hung"
RUDE = "broke a rule"
SILENT = "silent"
OTHERWISE = "does not repeat"
NOT_REPEATED = "is not repeated"
KINDS_OF_FAULTS = {
    OTHERWISE: (SAYS_OTHERWISE, NOT_REPEATED),
    CRASHED: ("has ended with status", "cannot be started", "has taken more than"),
    HUNG: (bounds.SENT_NOTHING, bounds.READ_NOTHING, bounds.USED_UP),
    UNPLAYED: (UNPLAYED,),
}
# of each kind of failure how its colour is called on pages, and what it means
KINDS = {
    CRASHED: (
        "crashed",
        "a program ended by a fault of its own, or took too much memory",
    ),
    HUNG: ("hung", "a program let the lab wait too long"),
    OTHERWISE: (
        "rude",
        "solved, but an agent says something else when it is alone and told the same again, or there "
        "was no time to repeat it",
    ),
    RUDE: ("rude", "a program said what the rules do not allow"),
    "wrong": ("wrong", "an agent accused a link that leads to no black hole"),
    "guess": ("wrong", "the accusation was right, but could not be known to be"),
    SILENT: ("silent", "nobody accused"),
    "unfinished": ("silent", "an agent had not ended"),
    UNPLAYED: ("hung", "the team's time was up, or the lab failed"),
}


class LeagueRow(NamedTuple):
    """A team in the league. Moves and lost agents are those of the matches that it
    solved; by the network's name stands how many of its matches it solved, and by their
    kinds how many matches failed."""

    place: int
    team: str
    matches: int
    solved: int
    moves: int
    lost: int
    networks: Dict[str, Tuple[int, int]]
    kinds: Dict[str, int]

    def rank(self) -> Tuple[int, int, int]:
        return -self.solved, self.moves, self.lost

    def cells(self) -> List[str]:
        return [str(value) for value in self[: len(HEAD)]]

    def page(self) -> str:
        """The file of the team's page."""
        return page_name(self.team)


class Failure(NamedTuple):
    """A failed match."""

    number: int
    # number of choices of the schedule; None if the match was skipped
    choices: Optional[int]
    has_smallest: bool
    # about the smallest schedule
    said: str
    has_pages: bool
    # files of what its programs wrote to standard error
    errors: Sequence[str] = ()
    # the referee's lines
    told: Sequence[str] = ()


def standings_of(rows: Sequence[Row], teams: Sequence[str]) -> List[LeagueRow]:
    """The teams, best first. Equal teams share a place, and stand in the order of the
    course's file."""
    league_rows = []
    for team in teams:
        team_rows = [row for row in rows if row["team"] == team]
        solved_rows = [row for row in team_rows if is_solved(row)]
        league_rows.append(
            LeagueRow(
                0,
                team,
                len(team_rows),
                len(solved_rows),
                sum(int(row["moves"]) for row in solved_rows),
                sum(int(row["lost"]) for row in solved_rows),
                by_network(team_rows),
                by_kind(team_rows),
            )
        )
    league_rows.sort(key=LeagueRow.rank)
    ranks = [standing.rank() for standing in league_rows]
    return [
        standing._replace(place=1 + ranks.index(standing.rank()))
        for standing in league_rows
    ]


def by_network(rows: Sequence[Row]) -> Dict[str, Tuple[int, int]]:
    """Returns how many matches on each network were solved, and how many there are."""
    counts: Dict[str, Tuple[int, int]] = {}
    for row in rows:
        solved_count, count = counts.get(row["network"], (0, 0))
        counts[row["network"]] = solved_count + is_solved(row), count + 1
    return counts


def by_kind(rows: Sequence[Row]) -> Dict[str, int]:
    """Returns how many matches failed in each way, in the order of the kinds."""
    kinds = [kind_of(row) for row in rows if not is_solved(row)]
    return {kind: kinds.count(kind) for kind in KINDS if kind in kinds}


def kind_of(row: Row) -> str:
    """How a match failed. A fault says more than the verdict, which may be a
    consequence of it."""
    if not row[FAULTS]:
        return str(row["outcome"]).split()[0]
    return next((kind for kind in KINDS_OF_FAULTS if is_of(kind, row[FAULTS][0])), RUDE)


def is_of(kind: str, fault: str) -> bool:
    """Returns whether a fault begins with the text of this kind. The end of a fault may
    quote the program, so it is ignored."""
    return re.sub(r"^agent \d+: ", "", fault).startswith(KINDS_OF_FAULTS[kind])


def table(standings: Sequence[LeagueRow]) -> List[Sequence[str]]:
    """The league table's rows, with their head."""
    return [
        [*HEAD, *standings[0].networks],
        *(
            [
                *standing.cells(),
                *(str(solved_count) for solved_count, _ in standing.networks.values()),
            ]
            for standing in standings
        ),
    ]


def text_of(standings: Sequence[LeagueRow]) -> str:
    """The league table as lines of text."""
    lines = [("#", "team", "solved", "moves", "lost")]
    lines += [
        (
            str(standing.place),
            standing.team,
            f"{standing.solved} of {standing.matches}",
            str(standing.moves),
            str(standing.lost),
        )
        for standing in standings
    ]
    return "".join(f"{a:>3} {b:<16} {c:<10} {d:>6} {e:>4}\n" for a, b, c, d, e in lines)


def folder_of(team: str, number: int) -> str:
    """Returns the folder of a failed match below the results."""
    return f"{FAILED}/{team}-{number}"


def page_name(team: str) -> str:
    return f"team-{team}.html"


# match number -> messages about its rejected lines
Refusals = Mapping[int, Sequence[str]]


def pages(
    grid: Grid,
    rows: Sequence[Row],
    failures: Dict[int, Failure],
    engine: str,
    refusals: Refusals = {},
) -> Dict[str, str]:
    """The league's page and a page for each team, by the names of their files."""
    standings = standings_of(rows, [team.name for team in grid.teams])
    texts = {PAGE: league_page(grid, standings, engine)}
    for standing in standings:
        team_rows = [row for row in rows if row["team"] == standing.team]
        texts[page_name(standing.team)] = team_page(
            grid, standing, team_rows, failures, refusals
        )
    return texts


def met_in(standings: Sequence[LeagueRow]) -> List[str]:
    """Returns the kinds of failures that occur in the standings, in the order of
    KINDS."""
    return [
        kind for kind in KINDS if any(kind in standing.kinds for standing in standings)
    ]


def league_page(grid: Grid, standings: Sequence[LeagueRow], engine: str) -> str:
    matches = standings[0].matches
    about = (
        f"Each of {len(standings)} teams played the same {matches} matches on {', '.join(grid.names)}. Played and "
        f"judged by {engine}."
    )
    head = [
        HEAD[0],
        HEAD[1],
        "solved",
        *standings[0].networks,
        "moves",
        "lost",
        "failed",
    ]
    return fill_page(
        "league.html",
        title=grid.title,
        about=about,
        head=head,
        standings=standings,
        kinds=KINDS,
        met=met_in(standings),
    )


def refused_in(rows: Sequence[Row], refusals: Refusals) -> List[Tuple[str, List[int]]]:
    """Returns each message about rejected lines of a team once, with the numbers of its
    matches."""
    runs_by_text: Dict[str, List[int]] = {}
    for row in rows:
        for text in refusals.get(int(row["run"]), ()):
            runs_by_text.setdefault(text, []).append(int(row["run"]))
    return list(runs_by_text.items())


def team_page(
    grid: Grid,
    standing: LeagueRow,
    rows: Sequence[Row],
    failures: Dict[int, Failure],
    refusals: Refusals,
) -> str:
    failed_rows = [row for row in rows if not is_solved(row)]
    about = (
        f"Place {standing.place} of {len(grid.teams)} in the league: solved {standing.solved} of "
        f"{standing.matches} matches, with {standing.moves} moves and {standing.lost} lost agents in these."
    )
    return fill_page(
        "team.html",
        title=f"Team {standing.team}",
        course=grid.title,
        about=about,
        kinds=KINDS,
        met=met_in([standing]),
        head=MATCH_HEAD,
        files=FILES,
        refused=refused_in(rows, refusals),
        cards=cards(
            [failed_match(row, failures[int(row["run"])]) for row in failed_rows]
        ),
        rows=[(row, "" if is_solved(row) else kind_of(row)) for row in rows],
    )


def failed_match(row: Row, failure: Failure) -> Dict[str, Any]:
    """Returns the data of a failed match for the team's page."""
    folder = folder_of(row["team"], failure.number)
    return {
        "row": row,
        "failure": failure,
        "kind": kind_of(row),
        "folder": folder,
        "smallest": f"{folder}/{SMALLEST}",
        "came": outcome_text(row["outcome"], row["moves"], row["lost"]),
    }


def cards(
    failed_rows: Sequence[Dict[str, Any]]
) -> List[Tuple[Dict[str, Any], List[Dict[str, Any]]]]:
    """Failed matches as cards: the first of each network that failed in a way and with
    these faults, and the others."""
    groups: Dict[Tuple[str, ...], List[Dict[str, Any]]] = {}
    for row in failed_rows:
        groups.setdefault(
            (row["row"]["network"], row["kind"], *map(alike, row["row"][FAULTS])), []
        ).append(row)
    return [
        (first, similar)
        for first, *similar in (
            sorted(equal, key=has_no_smallest) for equal in groups.values()
        )
    ]


def alike(fault: str) -> str:
    """A fault without how long the lab has waited, which is less once a team has hung
    twice."""
    return re.sub(rf"({bounds.SENT_NOTHING}|{bounds.READ_NOTHING}) \d+ s", r"\1", fault)


def has_no_smallest(row: Dict[str, Any]) -> bool:
    """Sort key of similar failures: those with a minimised schedule come first."""
    return not row["failure"].has_smallest


def outcome_text(outcome: str, moves: str, lost: str) -> str:
    """Formats the outcome of a match."""
    return f"{outcome}, {moves} moves, {lost} lost"
