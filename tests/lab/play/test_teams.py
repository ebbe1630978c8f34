"""The standings of a contest's teams."""
import unittest
from typing import List, Optional, Tuple

from arena_lab.pages.screen import WatchedMatch, standings, teams
from arena_lab.pages.ranked_teams import MatchOutcome, networks_of, rank_teams
from arena_lab.rules.model import Match, Setup, Verdict
from arena_lab.rules.networks import ring


def outcome_of(
    team: str,
    outcome: Optional[str],
    moves: int = 0,
    network: str = "r",
    has_entered: bool = True,
) -> MatchOutcome:
    return MatchOutcome(
        team,
        network,
        None if outcome is None else Verdict(outcome, moves, 1),
        has_entered,
    )


class Standings(unittest.TestCase):
    def places(self, outcomes: List[MatchOutcome]) -> List[Tuple[int, str, int, int]]:
        return [
            (row.place, row.team, row.solved, row.moves) for row in rank_teams(outcomes)
        ]

    def test_one_row_a_team_by_what_it_solved_and_then_by_moves(self) -> None:
        results = [
            outcome_of("a", "solved", 9),
            outcome_of("a", "guess", 1),
            outcome_of("b", "solved", 5),
            outcome_of("b", "solved", 7, "s"),
            outcome_of("c", "solved", 8),
            outcome_of("c", None),
        ]
        self.assertEqual(
            self.places(results), [(1, "b", 2, 12), (2, "c", 1, 8), (3, "a", 1, 9)]
        )
        self.assertEqual(rank_teams(results)[0].networks, {"r": (1, 1), "s": (1, 1)})
        self.assertEqual(networks_of(results), ["r", "s"])

    def test_equal_teams_share_a_place_and_who_never_came_stands_last(self) -> None:
        results = [
            outcome_of("late", "silent", has_entered=False),
            outcome_of("a", "silent"),
            outcome_of("b", "wrong", 30),
            outcome_of("none", None, has_entered=False),
        ]
        self.assertEqual(
            [(row.place, row.team, row.is_absent) for row in rank_teams(results)],
            [(1, "a", False), (1, "b", False), (3, "late", True), (3, "none", True)],
        )

    def test_traps_are_counted_apart(self) -> None:
        def trap(team: str, outcome: str) -> MatchOutcome:
            return outcome_of(team, outcome)._replace(is_trap=True)

        results = [
            outcome_of("a", "solved", 9),
            trap("a", "silent"),
            outcome_of("b", "solved", 5),
            trap("b", "wrong"),
            outcome_of("c", "solved", 9),
            trap("c", "unfinished"),
        ]
        rows = rank_teams(results)
        self.assertEqual(
            [(row.place, row.team, row.traps, row.deceived) for row in rows],
            [(1, "a", 1, 0), (1, "c", 1, 0), (3, "b", 1, 1)],
        )
        self.assertEqual(rows[0].networks, {"r": (1, 1)})

    def test_which_matches_are_traps_is_told_once_all_are_closed(self) -> None:
        over = {
            "team": "red",
            "state": "is over",
            "outcome": "silent",
            "moves": 1,
            "lost": 0,
            "came": True,
            "match": 0,
        }
        runs = {
            "team": "red",
            "state": "runs",
            "entered": 1,
            "agents": 2,
            "since": 7,
            "match": 1,
        }
        ((now,), (later,)) = (
            teams([over, it], ["r", "r"], [0])["rows"]
            for it in (runs, {**over, "match": 1})
        )
        self.assertEqual((now["traps"], now["networks"]), (0, [(0, 2)]))
        self.assertEqual((later["traps"], later["networks"]), (1, [(0, 1)]))

    def test_matches_as_they_are_watched(self) -> None:
        setup = Setup(3, ring(3).links, 0, [2], 2, 10, 8)
        solved_count = Match(setup)
        running = Match(setup)
        empty = Match(setup)
        for event in ({"do": "enter"}, {"do": "depart", "port": 0}):
            solved_count.reply_to(0, event)
        solved_count.deliver(0)
        solved_count.reply_to(0, {"do": "accuse", "port": 0})
        running.reply_to(0, {"do": "enter"})
        for match in (solved_count, empty):
            match.close()
        rows = standings(
            [
                WatchedMatch(team, match, 7)
                for team, match in (
                    ("red", running),
                    ("blue", empty),
                    ("red", solved_count),
                    ("green", None),
                )
            ]
        )
        message = teams(rows, ["r", "r", "s", "s"])
        self.assertEqual(message["networks"], ["r", "s"])
        self.assertEqual(
            [
                (
                    row["place"],
                    row["team"],
                    row["solved"],
                    row["is_absent"],
                    row["networks"],
                )
                for row in message["rows"]
            ],
            [
                (1, "red", 1, False, [(0, 1), (1, 1)]),
                (2, "blue", 0, True, [(0, 1), None]),
                (2, "green", 0, True, [None, (0, 1)]),
            ],
        )
