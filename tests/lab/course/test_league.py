"""A course's league: its order, its columns, and how failures are called."""
from arena_lab.course import league
from arena_lab.sweep import tables
from tests.support.course_files import Folder, row


class Leagues(Folder):
    def test_solved_first_then_moves_then_lost_agents_and_equals_share_a_place(
        self,
    ) -> None:
        rows = [
            row(0, "a", 9),
            row(1, "a", 9),
            row(2, "b", 9),
            row(3, "b", 1, "silent"),
            row(4, "c", 10),
            row(5, "c", 8),
            row(6, "d", 8),
            row(7, "d", 9),
        ]
        results = [standing[:5] for standing in league.standings_of(rows, list("abcd"))]
        self.assertEqual(
            results,
            [
                (1, "d", 2, 2, 17),
                (2, "a", 2, 2, 18),
                (2, "c", 2, 2, 18),
                (4, "b", 2, 1, 9),
            ],
        )

    def test_moves_count_before_lost_agents_and_these_before_nothing(self) -> None:
        few_lost = {**row(0, "a", 9), "lost": "0"}
        few_moves = {**row(0, "b", 8), "lost": "5"}
        rows = [
            few_lost,
            few_moves,
            {**row(0, "c", 9), "lost": "1"},
            {**row(0, "d", 9), "lost": "0"},
        ]
        results = [
            (standing.place, standing.team, standing.lost)
            for standing in league.standings_of(rows, list("abcd"))
        ]
        self.assertEqual(results, [(1, "b", 5), (2, "a", 0), (2, "d", 0), (4, "c", 1)])

    def test_a_fault_is_no_solution(self) -> None:
        league_rows = league.standings_of(
            [row(0, "a", 9, "solved", "agent 1: has connected twice")], ["a"]
        )
        self.assertEqual(league_rows[0].solved, 0)

    def test_each_failure_is_called_by_its_kind(self) -> None:
        for kind, outcome, *faults in (
            ("wrong", "wrong"),
            ("guess", "guess 3"),
            ("silent", "silent"),
            ("unfinished", "unfinished"),
            (
                "crashed",
                "solved",
                "agent 1: has ended with status 1 in the middle of its match",
            ),
            (
                "crashed",
                "silent",
                "agent 0: has ended with status 1 before it connected: has sent no line for",
            ),
            (
                "crashed",
                "silent",
                "agent 0: has ended with status 1 before it connected: agent 1: not played",
            ),
            ("crashed", "silent", "agent 0: cannot be started: the hand-in is refused"),
            (
                "does not repeat",
                "solved",
                "agent 0: says something else when it is told the same again, at command "
                "2: in the match `look`, alone `leave` (the program has ended with status 1)",
            ),
            (
                "crashed",
                "silent",
                "agent 0: has taken more than 2 GB of memory with all that it has started",
            ),
            (
                "hung",
                "silent",
                "agent 0: has sent no line for 20 s",
                "agent 1: has connected twice",
            ),
            (
                "hung",
                "silent",
                "agent 0: has used up the time of its match, 60 s in all",
            ),
            ("broke a rule", "silent", "agent 0: has connected twice"),
            (
                "not played",
                "not played",
                "not played: the matches of the team have taken the 3 s that it has",
            ),
        ):
            with self.subTest(kind):
                self.assertEqual(league.kind_of(row(0, "a", 1, outcome, *faults)), kind)
                self.assertIn(kind, league.KINDS)

    def test_the_league_has_a_column_for_each_network(self) -> None:
        rows = [row(0, "a", 9), row(1, "a", 9, "wrong"), row(2, "b", 9), row(3, "b", 1)]
        standings = league.standings_of(rows, ["a", "b"])
        self.assertEqual(
            league.table(standings),
            [
                [
                    "place",
                    "team",
                    "matches",
                    "solved",
                    "moves",
                    "lost",
                    "ring:4",
                    "ring:5",
                ],
                ["1", "b", "2", "2", "10", "2", "1", "1"],
                ["2", "a", "2", "1", "9", "1", "1", "0"],
            ],
        )

    def test_a_row_has_a_field_for_each_fault(self) -> None:
        """So no program's last words can make it two faults."""
        faults = [
            'agent 0: has ended with status 1: "x"; agent 1: forged, \\r',
            "agent 1: has connected twice",
        ]
        path = self.folder / "runs.csv"
        rows = [
            tables.with_check([*["0"] * 17, *faults]),
            tables.with_check([*["1"] * 17, ""]),
        ]
        path.write_text("".join(map(tables.line_of, [tables.COLUMNS, *rows])))
        self.assertEqual([row["faults"] for row in tables.rows_in(path)], [faults, []])
