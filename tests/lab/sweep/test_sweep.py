"""What a sweep's file says, and what is made of rows."""
import contextlib
import io
import unittest
from typing import Dict, List
from unittest import mock

from arena_lab.play.parallel import Result
from arena_lab.support.fields import FileFormatError
from arena_lab.sweep import report, row_checks, statistic, tables
from arena_lab.sweep.grid import Grid, grid_of
from arena_lab.sweep.tables import TableError
from tests.support.needing import needs
from tests.support.output import InTemporary

HEAD = 'title = "T"\nnetworks = ["ring:4", "ring:5"]\n'
TEAM = '[[team]]\nname = "a"\nagent = "examples/agents/ring.py {nodes}"\n'


def text(middle: str = "", team: str = TEAM) -> str:
    return HEAD + middle + team


def runs(grid: Grid) -> List[tuple]:
    return [
        (case.network, *case.holes, case.team.name, case.scheduler, case.seed)
        for case in grid.cases()
    ]


class Files(unittest.TestCase):
    def test_what_is_usual(self) -> None:
        grid = grid_of(text())
        self.assertEqual(
            runs(grid), [("ring:4", 1, "a", "fair", 0), ("ring:5", 1, "a", "fair", 0)]
        )
        setup = grid.fixture(next(grid.cases())).setup
        self.assertEqual(
            (setup.home, setup.holes, setup.agents, setup.quota, setup.board),
            (0, [1], 2, 1000, 4096),
        )

    def test_the_order_of_runs(self) -> None:
        two = TEAM + TEAM.replace('"a"', '"b"').replace("agent =", "command =")
        grid = grid_of(
            text('holes = [1, 3]\nschedulers = ["fair", "starved"]\nseeds = 2\n', two)
        )
        expectation = [
            (network, hole, team, scheduler, seed)
            for network in ("ring:4", "ring:5")
            for hole in (1, 3)
            for team in "ab"
            for scheduler in ("fair", "starved")
            for seed in (0, 1)
        ]
        self.assertEqual(runs(grid), expectation)
        self.assertEqual(
            [case.number for case in grid.cases()], list(range(len(expectation)))
        )

    def test_black_holes(self) -> None:
        def holes(text_given: str) -> List[int]:
            grid = grid_of(text(f"home = 2\nseeds = 3\nholes = {text_given}\n"))
            return [case.holes[0] for case in grid.cases() if case.network == "ring:5"]

        self.assertEqual(holes('"by seed"'), [0, 1, 3])
        self.assertEqual(holes('"all"'), [0, 0, 0, 1, 1, 1, 3, 3, 3, 4, 4, 4])
        self.assertEqual(len(set(holes("2"))), 2)
        self.assertEqual(holes("2"), holes("2"))
        self.assertNotIn(2, holes("4"))

    def test_few_seeds_that_draw_black_holes_are_a_sample(self) -> None:
        def holes(seeds: int) -> List[int]:
            grid = grid_of(
                text(f"seeds = {seeds}\nholes = 'drawn'\n").replace(
                    "ring:5", "ring:128"
                )
            )
            return [
                case.holes[0] for case in grid.cases() if case.network == "ring:128"
            ]

        self.assertEqual(sorted(holes(127)), list(range(1, 128)))
        self.assertEqual(holes(20), holes(127)[:20])
        # a quarter of them on each side of the home base at least
        self.assertTrue(5 <= sum(hole < 64 for hole in holes(20)) <= 15, holes(20))

    def test_several_black_holes_and_dark_links(self) -> None:
        grid = grid_of(text("holes = [1, [3, 2], []]\ndark = [[0, 1]]\n"))
        cases = [case for case in grid.cases() if case.network == "ring:5"]
        self.assertEqual(
            [(case.holes, case.hole) for case in cases],
            [((1,), "1"), ((2, 3), "2 3"), ((), "")],
        )
        self.assertEqual(
            [grid.fixture(case).setup.holes for case in cases], [[1], [2, 3], []]
        )
        self.assertEqual(grid.fixture(cases[0]).setup.dark, [(0, 1)])

    def test_one_agent_more_than_the_greatest_degree(self) -> None:
        grid = grid_of(
            text()
            .replace("ring:5", "complete:6")
            .replace("name =", 'agents = "degree"\nname =')
        )
        self.assertEqual(
            [grid.fixture(case).setup.agents for case in grid.cases()], [3, 6]
        )

    def test_what_is_refused(self) -> None:
        for arguments, message in (
            ("title = 3\n" + TEAM, "title must be a text"),
            (HEAD, "team must be given"),
            (text("seed = 3\n"), "it has no key seed; its keys are board,"),
            ("title", "it is no TOML"),
            (text("seeds = 0\n"), "seeds must be a whole number from 1"),
            (text("bound = 'n'\n"), "bound must be one of 2 n log2 n,"),
            (text("holes = 'some'\n"), 'holes must be "by seed", "drawn", "all",'),
            (
                text("holes = [4]\n"),
                "holes has 4, and a black hole of ring:4 is a node up to 3",
            ),
            (
                text("holes = [[1, 1]]\n"),
                "ring:4: node 1 is named as a black hole twice",
            ),
            (
                text("dark = [[0, 2]]\n"),
                "ring:4: node 0 has no port 2, so no dark link is there",
            ),
            (
                text("dark = [0]\n"),
                "dark must be a list of nodes with ports, such as [[0, 1]]",
            ),
            (text("home = 4\n"), "home is 4, and ring:4 has the nodes 0 to 3"),
            (text(team=TEAM + TEAM), "two teams have the same name"),
            (text(team=TEAM + "command = 'x'\n"), "needs either agent or command"),
            (text(team=TEAM + "agents = 65\n"), "agents must be 1 to 64"),
            (text(team=TEAM + "size = 1\n"), "a team has no key size"),
        ):
            with self.subTest(message), self.assertRaises(FileFormatError) as fault:
                grid_of(arguments)
            self.assertIn(message, str(fault.exception))


def row(
    run: int,
    moves: int,
    outcome: str = "solved",
    network: str = "ring:4",
    fault: str = "",
) -> Dict[str, str]:
    values = [
        run,
        network,
        4,
        4,
        0,
        1,
        "a",
        2,
        "fair",
        run,
        outcome,
        moves,
        1,
        9,
        9,
        "00",
        "",
        fault,
    ]
    return dict(zip(tables.COLUMNS, map(str, values)))


@needs("numpy", "scipy")
class Reports(unittest.TestCase):
    def test_a_summary(self) -> None:
        grid = grid_of(text('bound = "n^2"\n'))
        again = {**row(2, 6), "replay": "01"}
        groups = report.groups_of(
            [row(0, 4), row(1, 8), again, row(3, 9, network="ring:5")], grid
        )
        self.assertEqual(
            report.summary(groups)[1],
            [
                "ring:4",
                "4",
                "a",
                "2",
                "fair",
                "3",
                "2",
                "3",
                "6.0",
                "5.0",
                "5",
                "6",
                "7",
                "8",
                "1",
                "1",
                "16",
            ],
        )
        self.assertEqual(report.summary(groups)[2][8:13], ["9.0", "0.0", "9", "9", "9"])
        # moves are numbers: 10 are more than 9
        self.assertEqual(
            report.groups_of([row(0, 9), row(1, 10)], grid)[0].worst["run"], "1"
        )

    def test_the_runs_that_are_kept(self) -> None:
        rows = [
            row(0, 4),
            row(1, 8),
            row(2, 8),
            row(3, 5, network="ring:5"),
            row(4, 9, "silent", "ring:5"),
            row(5, 99, "silent", "ring:5"),
        ]
        self.assertEqual([run["run"] for run in report.worst_runs(rows)], ["1", "4"])

    def test_a_fault_is_a_failure(self) -> None:
        grid = grid_of(text())
        self.assertEqual(
            report.groups_of([row(0, 4, fault="agent 1: raises")], grid)[0].solved, 0
        )


@needs("numpy", "scipy")
class Statistics(unittest.TestCase):
    def test_students_t(self) -> None:
        """Compares quantiles with published tables for 95 %."""
        for freedom, expectation in (
            (1, 12.706),
            (2, 4.303),
            (3, 3.182),
            (9, 2.262),
            (19, 2.093),
            (30, 2.042),
            (199, 1.972),
            (1999, 1.961),
        ):
            self.assertAlmostEqual(statistic.student(freedom), expectation, 3)
        self.assertAlmostEqual(statistic.student(10, 0.99), 3.169, 3)

    def test_quartiles(self) -> None:
        confidence = statistic.spread_of([1, 2, 3, 4, 100])
        self.assertEqual(
            (confidence.low, confidence.median, confidence.high, confidence.mean),
            (2, 3, 4, 22),
        )
        self.assertEqual(statistic.spread_of([7]), (7, 0, 7, 7, 7))


class Tables(InTemporary):
    def setUp(self) -> None:
        super().setUp()
        self.folder /= "made"
        self.path = self.folder / tables.RUNS

    def prepare(self, **args: object) -> int:
        return tables.prepare_table(self.folder, {"program": "", **args})

    def add(self, *rows: List[str]) -> str:
        """Writes rows, and gives the file's text."""
        with self.path.open("a") as file:
            file.write("".join(map(tables.line_of, rows)))
        return self.path.read_text()

    def test_a_row_that_was_not_written_whole_is_dropped(self) -> None:
        self.assertEqual(self.prepare(), 0)
        whole = self.add(cells(0), cells(1))
        self.path.write_text(whole + "2,c")
        self.assertEqual(self.prepare(), 2)
        self.assertEqual(self.path.read_text(), whole)
        self.path.write_text("run,net")
        self.assertEqual(self.prepare(), 0)
        self.assertEqual(self.path.read_text(), tables.line_of(tables.COLUMNS))

    def test_rows_that_were_made_otherwise_are_kept_as_they_are(self) -> None:
        before = {"files": {"a.py": "1", "b.py": "2"}, "python": "3.11"}
        self.prepare(**before)
        for now, message in (
            ({"program": "00"}, "program differ"),
            ({"python": "3.12"}, "python differ"),
            ({"files": {"a.py": "1"}}, "b.py differ"),
            (
                {"files": {"a.py": "3", "b.py": "2", "c.py": "4"}},
                "a.py and 1 more differ",
            ),
        ):
            with self.subTest(message), self.assertRaisesRegex(
                TableError, f"made otherwise: {message}"
            ):
                self.prepare(**{**before, **now})
        (self.folder / tables.RECORD_FILE).write_text("?")
        with self.assertRaisesRegex(TableError, "not as it was written"):
            self.prepare(**before)
        (self.folder / tables.RECORD_FILE).unlink()
        with self.assertRaisesRegex(TableError, "name another folder"):
            self.prepare(**before)

    def test_a_row_that_was_edited_is_told(self) -> None:
        self.prepare()
        whole = self.add(cells(0), cells(1), cells(2))
        self.assertEqual(len(tables.rows_in(self.path)), 3)
        lines = whole.splitlines(keepends=True)
        for wrong, line in (
            (whole.replace("solved", "silent", 1), 2),
            ("".join(lines[:2] + lines[3:]), 3),
            (whole + lines[3], 5),
            (whole.replace(lines[3], "2,ring:4\n"), 4),
        ):
            self.path.write_text(wrong)
            with self.assertRaisesRegex(
                TableError, f"line {line} is not as it was written"
            ):
                self.prepare()

    def test_two_commands_do_not_write_into_one_folder(self) -> None:
        with tables.alone_in(self.folder):
            with self.assertRaisesRegex(
                TableError, "another command writes into"
            ), tables.alone_in(self.folder):
                pass
        with tables.alone_in(self.folder):
            pass


def cells(run: int) -> List[str]:
    """A row as a sweep writes it."""
    return tables.with_check([str(row(run, 4)[name]) for name in tables.COLUMNS])


class Verified(unittest.TestCase):
    def test_what_comes_out_otherwise(self) -> None:
        now = tables.with_check(["0", *cells(0)[1:-2], "", "agent 1: raises"])
        self.assertIsNone(row_checks.differing(0, cells(0), cells(0)))
        self.assertEqual(
            row_checks.differing(0, cells(0), now), row_checks.Differing(0, ["fault"])
        )
        with contextlib.redirect_stderr(
            io.StringIO()
        ) as errors, contextlib.redirect_stdout(io.StringIO()) as stream, mock.patch(
            "arena_lab.support.progress.bar", mock.MagicMock()
        ):
            differences = row_checks.differing_rows(
                [0, 1], [cells(0), cells(1)], [Result(cells(0), ""), Result(None, "no")]
            )
            self.assertEqual(row_checks.report_differences([0, 1], 9, differences), 1)
        self.assertEqual(errors.getvalue(), "run 1 comes out otherwise: fault\n")
        self.assertEqual(stream.getvalue(), "2 of 9 rows were played again: 1 differ\n")

    def test_which_rows(self) -> None:
        self.assertEqual(row_checks.chosen(3, row_checks.ALL), [0, 1, 2])
        self.assertEqual(row_checks.chosen(3, 5), [0, 1, 2])
        draw = row_checks.chosen(1000, 500)
        self.assertEqual(len(set(draw)), 500)
        self.assertNotEqual(draw, row_checks.chosen(1000, 500))
