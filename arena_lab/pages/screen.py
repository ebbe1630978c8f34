"""Computes what a screen may show of a running contest: only what all players know,
because they look at it.

Of a match that is not closed: whose it is, whether turns go on, and how many of its
agents have entered. That is the same in two matches that no agent can tell apart: where
the black holes are, who is lost, and who is on a link does not count. The turn of its
last event tells that somebody has acted, which agents cannot see: it is shown of open
matches alone. Once a match is closed, its verdict is shown. The page of a match shows
the black holes, which others may still look for, so pages come when all matches are
closed.
"""
from typing import Any, Collection, Dict, List, NamedTuple, Optional, Sequence

from arena_lab.pages.ranked_teams import MatchOutcome, networks_of, rank_teams
from arena_lab.rules.model import OUTSIDE, RANKS, Match, Verdict, judge, rank

Row = Dict[str, Any]
NOT_BEGUN = "has not begun"
WAITS = "waits for its agents"
RUNS = "runs"
OVER = "is over"


class WatchedMatch(NamedTuple):
    """A match on the screen: team, start of its turns in seconds (None before), network
    name, and the last turn that the server wrote, if visible."""

    team: str
    match: Optional[Match]
    since: Optional[int]
    network: str = ""
    turn: Optional[int] = None


def match_row(watched_match: WatchedMatch, all_closed: bool) -> Row:
    """Returns the visible state of a match."""
    team, match, since, _, turn = watched_match
    if match is None:
        return {"team": team, "state": NOT_BEGUN}
    if not match.closed:
        entered_count = sum(agent.standing != OUTSIDE for agent in match.agents)
        row = {
            "team": team,
            "state": WAITS if since is None else RUNS,
            "entered": entered_count,
            "agents": match.setup.agents,
        }
        facts = {"since": since, "turn": turn}
        return (
            row
            if since is None
            else {
                **row,
                **{name: value for name, value in facts.items() if value is not None},
            }
        )
    verdict = judge(match)
    has_come = any(agent.standing != OUTSIDE for agent in match.agents)
    outcome = verdict.outcome if all_closed else verdict.kind
    return {
        "team": team,
        "state": OVER,
        "outcome": outcome,
        "moves": verdict.moves,
        "lost": verdict.lost,
        "came": has_come,
    }


def place_of(row: Row) -> Any:
    """Matches that are over come first, as in the arena's table; the others stay in the
    order of their numbers."""
    if row["state"] != OVER:
        return (len(RANKS),)
    return rank(Verdict(row["outcome"], row["moves"], row["lost"]), row["team"])


def teams(
    rows: Sequence[Row], networks: Sequence[str], traps: Collection[int] = ()
) -> Row:
    """Returns the standings computed from visible states only. Traps are revealed once
    all matches are closed."""
    visible_traps = traps if all(row["state"] == OVER for row in rows) else ()
    outcomes = [
        MatchOutcome(
            row["team"],
            networks[row["match"]],
            verdict_in(row),
            row.get("came", bool(row.get("entered"))),
            row["match"] in visible_traps,
        )
        for row in sorted(rows, key=lambda row: int(row["match"]))
    ]
    names = networks_of(outcomes)
    return {
        "networks": names,
        "rows": [
            {**team._asdict(), "networks": [team.networks.get(name) for name in names]}
            for team in rank_teams(outcomes)
        ],
    }


def verdict_in(row: Row) -> Optional[Verdict]:
    return (
        Verdict(row["outcome"], row["moves"], row["lost"])
        if row["state"] == OVER
        else None
    )


def standings(all_watched: Sequence[WatchedMatch]) -> List[Row]:
    """Returns the visible rows of all matches, by network and best first; `page` says
    whether the match's page may be opened."""
    all_closed = all(
        watched_match.match is not None and watched_match.match.closed
        for watched_match in all_watched
    )
    rows = [
        {
            "match": number,
            "network": watched_match.network,
            "page": all_closed,
            **match_row(watched_match, all_closed),
        }
        for number, watched_match in enumerate(all_watched)
    ]
    names = [watched_match.network for watched_match in all_watched]
    return sorted(rows, key=lambda row: (names.index(row["network"]), place_of(row)))
