"""The rules by which teams are ranked, as in the league of a course: who solved more
matches stands before, then who made fewer moves, then who lost fewer agents. Teams that
are equal in all of these share a place. Nothing here asks the database."""
from typing import Dict, List, NamedTuple, Sequence, Tuple


class GradedTeam(NamedTuple):
    """The grading of a team's program: totals, and solved and played matches by
    network."""

    team: str
    solved: int
    matches: int
    moves: int
    lost: int
    networks: Dict[str, Sequence[int]]


def league(graded_teams: Sequence[GradedTeam]) -> List[Tuple[int, GradedTeam]]:
    """Programs with their places, the best first."""
    ranking = sorted(graded_teams, key=league_rank)
    ranks = [league_rank(graded_team) for graded_team in ranking]
    return [
        (1 + ranks.index(league_rank(graded_team)), graded_team)
        for graded_team in ranking
    ]


def league_rank(graded_team: GradedTeam) -> Tuple[int, int, int]:
    return -graded_team.solved, graded_team.moves, graded_team.lost
