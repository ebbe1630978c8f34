"""The teams of a contest, ranked: one row a team, however many matches it has.

Teams are ranked by more solved matches, then by fewer traps that deceived them, fewer
moves, and fewer lost agents; only the moves and losses of solved matches count. Equal
teams share a place. A team is absent if none of its agents has entered, and stands
behind all others. Of a match that goes on, only this is shown.

A trap is a match without a black hole, in which links let nobody arrive. A team that
takes a long silence for a black hole accuses there, and is deceived; there is nothing
to solve.
"""
from typing import Dict, List, NamedTuple, Optional, Sequence, Tuple

from arena_lab.rules.model import WRONG, Verdict


class MatchOutcome(NamedTuple):
    """The result of a match: team, network, verdict (None while open), whether an agent
    has entered, and whether it is a revealed trap."""

    team: str
    network: str
    verdict: Optional[Verdict]
    has_entered: bool
    is_trap: bool = False


class RankedTeam(NamedTuple):
    """A team in the standings. By the network's name stands how many of its matches it
    solved, and how many it has; traps are counted apart, and how many of them deceived
    it."""

    place: int
    team: str
    solved: int
    moves: int
    lost: int
    is_absent: bool
    networks: Dict[str, Tuple[int, int]]
    traps: int = 0
    deceived: int = 0

    def rank(self) -> Tuple[bool, int, int, int, int]:
        return self.is_absent, -self.solved, self.deceived, self.moves, self.lost


def rank_teams(outcomes: Sequence[MatchOutcome]) -> List[RankedTeam]:
    """The teams, best first; equal ones in the order of their matches."""
    rows = [
        row_of(team, [outcome for outcome in outcomes if outcome.team == team])
        for team in dict.fromkeys(outcome.team for outcome in outcomes)
    ]
    rows.sort(key=RankedTeam.rank)
    ranks = [row.rank() for row in rows]
    return [row._replace(place=1 + ranks.index(row.rank())) for row in rows]


def row_of(team: str, outcomes: Sequence[MatchOutcome]) -> RankedTeam:
    """The row of a team, which has no place yet."""
    solved_outcomes = [outcome for outcome in outcomes if is_solved(outcome)]
    networks: Dict[str, Tuple[int, int]] = {}
    traps = [outcome for outcome in outcomes if outcome.is_trap]
    for outcome in outcomes:
        if not outcome.is_trap:
            solved_count, count = networks.get(outcome.network, (0, 0))
            networks[outcome.network] = solved_count + is_solved(outcome), count + 1
    moves, lost = (
        sum(getattr(outcome.verdict, name) for outcome in solved_outcomes)
        for name in ("moves", "lost")
    )
    deceived_count = sum(
        trap.verdict is not None and trap.verdict.outcome == WRONG for trap in traps
    )
    return RankedTeam(
        0,
        team,
        len(solved_outcomes),
        moves,
        lost,
        not any(outcome.has_entered for outcome in outcomes),
        networks,
        len(traps),
        deceived_count,
    )


def is_solved(outcome: MatchOutcome) -> bool:
    return outcome.verdict is not None and outcome.verdict.is_solved


def networks_of(outcomes: Sequence[MatchOutcome]) -> List[str]:
    """The networks, in the order in which matches first name them."""
    return list(dict.fromkeys(outcome.network for outcome in outcomes))
