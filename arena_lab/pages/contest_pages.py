"""Writes the pages of a contest: one per match, and an index page."""
import pathlib
import shutil
import tomllib
from typing import Any, Dict, List, NamedTuple, Optional, Sequence, Tuple

from arena_lab.pages.judging import verdict_of
from arena_lab.pages.match_page import write_page
from arena_lab.pages.parts import fill_page
from arena_lab.pages.ranked_teams import MatchOutcome, networks_of, rank_teams
from arena_lab.rules.model import RANKS, Verdict, rank
from arena_lab.rules.networks import NetworkError

# which of a match's tries counts
BETTER = "better"
LAST = "last"
# the tournament of another try, and the file beside it that maps its matches to the
# original ones
TOURNAMENT = "tournament.toml"
PLAN_FILE = "again.toml"


class MatchRow(NamedTuple):
    """A match as the list shows it."""

    number: int
    team: str
    network: str
    verdict: Optional[Verdict]
    # whether it has no black hole, and links that let nobody arrive
    is_trap: bool = False
    # whether an agent has entered
    has_entered: bool = False
    # how often it was played
    tries: int = 1

    @property
    def name(self) -> str:
        """Returns the name of the network's file without its ending."""
        return pathlib.PurePath(self.network).stem


def matches_of(tournament: pathlib.Path) -> List[MatchRow]:
    """The matches of a tournament's file, not judged yet."""
    try:
        rows = tomllib.loads(tournament.read_text(encoding="utf-8"))["match"]
        return [
            MatchRow(number, row["team"], row["network"], None, is_trap_in(row))
            for number, row in enumerate(rows)
        ]
    except (tomllib.TOMLDecodeError, KeyError, TypeError) as fault:
        raise NetworkError(
            f"{tournament}: this is not the file of a tournament ({fault}): see `arena check`"
        ) from None


def is_trap_in(match: Dict[str, Any]) -> bool:
    """Returns whether a match of a tournament's file is a trap."""
    destroys = (
        match.get("holes", [])
        or match.get("dark", [])
        or match.get("hole", "none") != "none"
    )
    return not destroys and bool(match.get("held", []))


def place_of(row: MatchRow) -> Tuple[int, int, int, str]:
    """Sort key of the arena's table; matches without a replay come last."""
    return (
        (len(RANKS), 0, 0, row.team)
        if row.verdict is None
        else rank(row.verdict, row.team)
    )


def page_of(title: str, matches: List[MatchRow]) -> str:
    """The page that lists the matches."""
    solved_count = sum(
        match.verdict is not None and match.verdict.is_solved for match in matches
    )
    outcomes = [
        MatchOutcome(
            match.team, match.name, match.verdict, match.has_entered, match.is_trap
        )
        for match in matches
    ]
    names = networks_of(outcomes)
    parts = [
        (name, sorted((match for match in matches if match.name == name), key=place_of))
        for name in names
    ]
    return fill_page(
        "contest.html",
        title=title,
        count=len(matches),
        parts=parts,
        solved=solved_count,
        teams=rank_teams(outcomes),
        networks=names,
    )


def has_entered(replay: pathlib.Path) -> bool:
    """Returns whether an agent has entered a match, by its replay."""
    with replay.open(encoding="utf-8", newline="\n") as lines:
        return any('"do":"enter"' in line for line in lines)


class Tries(NamedTuple):
    """The folders with other tries of the matches, and the rule that selects the try
    that counts."""

    folders: Sequence[pathlib.Path] = ()
    take: str = BETTER

    def replays(self) -> Dict[int, List[pathlib.Path]]:
        """The replays of the tries, by the numbers of matches, in their order."""
        replays: Dict[int, List[pathlib.Path]] = {}
        for folder in self.folders:
            path = folder / TOURNAMENT
            try:
                number = tomllib.loads(
                    path.with_name(PLAN_FILE).read_text(encoding="utf-8")
                )["match"]
            except (OSError, tomllib.TOMLDecodeError, KeyError):
                raise NetworkError(
                    f"{path}: this is no other try of a match: see `tournament --again`"
                ) from None
            replay = path.with_name(f"{path.stem}0.jsonl")
            if replay.exists():
                replays.setdefault(number, []).append(replay)
        return replays

    def chosen(
        self, program: Optional[str], team: str, replays: Sequence[pathlib.Path]
    ) -> pathlib.Path:
        """The try that counts."""
        if self.take == LAST:
            return replays[-1]
        return min(replays, key=lambda replay: rank(verdict_of(program, replay), team))


def write_pages(
    program: Optional[str],
    tournament: pathlib.Path,
    prefix: str,
    folder: pathlib.Path,
    tries: Tries = Tries(),
) -> pathlib.Path:
    """Writes the pages of a contest; gives the page that lists the others."""
    all_matches = matches_of(tournament)
    matches = []
    other_tries = tries.replays()
    replays = [pathlib.Path(f"{prefix}{match.number}.jsonl") for match in all_matches]
    if not any(replay.exists() for replay in replays):
        raise NetworkError(
            f"{prefix}: no match has a replay, as {prefix}0.jsonl: name what `serve` was told by --replay"
        )
    folder.mkdir(parents=True, exist_ok=True)
    for match, first in zip(all_matches, replays):
        all_tries = [
            replay
            for replay in (first, *other_tries.get(match.number, []))
            if replay.exists()
        ]
        if all_tries:
            replay = tries.chosen(program, match.team, all_tries)
            match = match._replace(
                verdict=verdict_of(program, replay),
                tries=len(all_tries),
                has_entered=any(map(has_entered, all_tries)),
            )
            write_page(
                program,
                replay,
                folder / f"match{match.number}.html",
                title=f"match {match.number}: {match.team} on {match.name}",
            )
            page_path = folder / f"match{match.number}.jsonl"
            if page_path.resolve() != replay.resolve():
                shutil.copyfile(replay, page_path)
        matches.append(match)
    index = folder / "index.html"
    index.write_text(page_of(tournament.stem, matches), encoding="utf-8")
    return index
