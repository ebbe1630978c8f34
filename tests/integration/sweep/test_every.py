"""`sweep --explore` tries every schedule of a sweep's matches, and says what was found
beside the runs."""
import csv
from typing import Dict, List, Tuple
from unittest import mock

from arena_lab.__main__ import main
from arena_lab.play import parallel
from arena_lab.rules.engines import EnginesDifferError
from arena_lab.search.history_tree import NoFunctionError
from arena_lab.sweep import every, sweeping, tables
from arena_lab.sweep.grid import grid_of
from tests.integration.search.test_cluster import OnCluster
from tests.support.matches import InFolder, program
from tests.support.output import run_call

TEXT = """title = "Every schedule"
networks = ["ring:3", "ring:4"]
schedulers = ["fair", "starved"]
seeds = 3
[[team]]
name = "right"
agent = "examples/agents/ring.py {nodes}"
[[team]]
name = "wrong"
agent = "examples/agents/faulty/reads_once.py {nodes}"
"""
# by network and team: what is said of every schedule, the most moves and the most lost
# agents
FOUND = {
    ("ring:3", "right"): ["solves", "4", "1"],
    ("ring:3", "wrong"): ["solves", "4", "1"],
    ("ring:4", "right"): ["solves", "9", "1"],
    ("ring:4", "wrong"): ["one fails", "", ""],
}


class Every(InFolder):
    def setUp(self) -> None:
        super().setUp()
        self.file = self.folder / "sweep.toml"
        self.out = self.folder / "out"
        self.file.write_text(TEXT)

    def swept(self, *extra: str) -> Tuple[int, str]:
        """The exit status, and what was said."""
        words = [
            "sweep",
            str(self.file),
            "--out",
            str(self.out),
            "--program",
            program(),
            "--workers",
            "2",
            *extra,
        ]
        status, output, errors = run_call(main, words)
        return status, output + errors

    def comes_to(self, status: int, *extra: str) -> None:
        """The sweep ends with this status."""
        result, output = self.swept(*extra)
        self.assertEqual(result, status, output)

    def rows(self) -> List[List[str]]:
        return tables.cells_in(self.out / every.EVERY, every.COLUMNS)

    def summaries(self) -> Dict[Tuple[str, str], List[str]]:
        """What the summary says of every schedule."""
        with (self.out / sweeping.SUMMARY).open(newline="") as file:
            return {
                (row["network"], row["team"]): [
                    row[it]
                    for it in ("every schedule", "its most moves", "its most lost")
                ]
                for row in csv.DictReader(file)
            }

    def test_what_is_found_stands_in_a_table_the_summary_and_the_report(self) -> None:
        status, output = self.swept("--explore", "100000")
        self.assertEqual(status, 1, output)
        self.assertRegex(
            output,
            r"every schedule of 10 matches on .*: solved 9; failed 1; not tried as a whole 0; the",
        )
        self.assertEqual(self.summaries(), FOUND)
        page = (self.out / sweeping.REPORT).read_text()
        self.assertIn('<a href="every.csv">', page)
        self.assertEqual(page.count('<tr class="failed">'), 3, page)
        rows = self.rows()
        self.assertEqual(
            [row[1:9] for row in rows[4:6]],
            [["ring:4", "4", "4", "0", hole, "right", "2", "2"] for hole in "12"],
        )
        self.assertEqual([row[9] for row in rows].count("solves"), 9)
        # a single process gives the same rows, and a second run explores nothing
        text = (self.out / every.EVERY).read_text()
        self.out = self.folder / "alone"
        self.comes_to(1, "--explore", "100000", "--workers", "1")
        self.assertEqual((self.out / every.EVERY).read_text(), text)
        with mock.patch.object(
            every.SweepExploreJob, "play", side_effect=AssertionError
        ):
            self.comes_to(1, "--explore", "100000")
        # a run without --explore still reports the findings
        self.assertIn("every schedule of 10 matches", self.swept()[1])
        self.assertEqual(self.summaries(), FOUND)
        self.assertIn(
            "24 of 24 rows were played again: 0 differ", self.swept("--verify")[1]
        )
        (self.out / sweeping.SUMMARY).write_text("")
        self.assertIn(
            "summary.csv is not what is made of the rows", self.swept("--verify")[1]
        )

    def test_a_match_of_too_many_states_is_tried_again_with_more(self) -> None:
        self.comes_to(0, "--explore", "60")
        limited_value = [
            number for number, row in enumerate(self.rows()) if row[9] == every.LIMIT
        ]
        self.assertTrue(limited_value and len(limited_value) < 10)
        self.assertEqual(
            {row[10] for row in self.rows() if row[9] == every.LIMIT}, {"60"}
        )
        self.assertEqual(
            self.summaries()["ring:4", "right"], ["too many states", "", ""]
        )
        with mock.patch.object(
            parallel, "over_processes", side_effect=parallel.over_processes
        ) as over:
            self.comes_to(1, "--explore", "100000")
        trial = [match.number for match in over.call_args.args[1]]
        self.assertEqual(trial, limited_value)
        self.assertEqual(self.summaries(), FOUND)

    def test_it_goes_on_behind_the_last_row(self) -> None:
        self.swept("--explore", "100000")
        path = self.out / every.EVERY
        text = path.read_text()
        path.write_text("".join(text.splitlines(keepends=True)[:5]))
        self.comes_to(0)
        self.assertEqual(self.summaries()["ring:4", "right"], ["not tried", "", ""])
        self.comes_to(1, "--explore", "100000")
        self.assertEqual(path.read_text(), text)
        path.write_text(text.replace("solves", "limit", 1))
        self.assertIn("line 2 is not as it was written", self.swept()[1])
        path.write_text(text)
        rows = self.rows()
        rows[1] = tables.with_check([*rows[1][:5], "1", *rows[1][6:-1]], every.COLUMNS)
        path.write_text("".join(map(tables.line_of, [every.COLUMNS, *rows])))
        self.assertIn(
            "line 3 is of another match than the sweep has there", self.swept()[1]
        )

    def test_a_team_whose_agents_are_no_functions_is_told(self) -> None:
        text = TEXT.partition("[[team]]")[0].replace('"ring:3", "ring:4"', '"ring:3"')
        self.file.write_text(
            text + TEXT[TEXT.index("[[team]]") :].replace('"right"', '"odd"')
        )
        with mock.patch.object(
            every.driver, "here", side_effect=NoFunctionError("it is none")
        ), mock.patch.object(
            parallel,
            "over_processes",
            lambda work, matches, *_, **__: (
                parallel.result_of(work, match) for match in matches
            ),
        ):
            status, output = self.swept("--explore", "100")
        self.assertEqual(status, 2, output)
        self.assertIn(
            "odd on ring:3 with black hole 1: it is none; the report is written without --explore",
            output,
        )

    def test_words_that_do_not_belong_together(self) -> None:
        for words, why in (
            (["--engine", "model"], "leave --engine model out"),
            (["--verify"], "leave --explore out"),
        ):
            status, output = self.swept("--explore", "100", *words)
            self.assertEqual(status, 2, output)
            self.assertIn(why, output)

    def test_a_run_that_does_what_no_schedule_does_is_told(self) -> None:
        run = {
            "run": "7",
            "network": "ring:3",
            "team": "a",
            "hole": "1",
            "outcome": "solved",
            "fault": "",
            "moves": "4",
            "lost": "1",
        }
        row = {
            "network": "ring:3",
            "team": "a",
            "hole": "1",
            "found": "solves",
            "moves": "4",
            "lost": "1",
        }
        every.check_runs([row], [run, {**run, "hole": "2", "moves": "9"}])
        every.check_runs(
            [{**row, "found": every.LIMIT, "moves": ""}], [{**run, "moves": "9"}]
        )
        for extra in (
            {"moves": "5"},
            {"lost": "2"},
            {"outcome": "silent"},
            {"fault": "agent 0: raises"},
        ):
            with self.subTest(extra), self.assertRaisesRegex(
                EnginesDifferError, "^run 7: .* at most 4 and 1: "
            ):
                every.check_runs([row], [{**run, **extra}])

    def test_matches_of_one_team_on_one_network_stand_behind_each_other(self) -> None:
        results = [
            (
                match.number,
                match.case.network,
                match.case.team.name,
                match.case.hole,
                match.position,
            )
            for match in every.matches_of(grid_of(TEXT))
        ]
        teams = [
            (network, team, hole, hole - 1)
            for network, limit in (("ring:3", 2), ("ring:4", 3))
            for team in ("right", "wrong")
            for hole in range(1, limit + 1)
        ]
        self.assertEqual(
            results,
            [
                (number, network, team, str(hole), index)
                for number, (network, team, hole, index) in enumerate(teams)
            ],
        )


class Clusters(OnCluster):
    def test_a_cluster_finds_the_same(self) -> None:
        self.file.write_text(
            TEXT.partition('[[team]]\nname = "wrong"')[0].replace(', "ring:4"', "")
        )
        address = self.scheduler()
        results = []
        self.worker(address)
        for out, extra in (("here", []), ("there", ["--cluster", address])):
            self.swept(out, "--program", program(), "--explore", "1000", *extra)
            results.append((self.folder / out / every.EVERY).read_bytes())
        self.assertEqual(results[0], results[1])
        self.assertEqual(results[0].count(b"solves"), 2)
