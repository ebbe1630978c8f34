"""Small parts of the experiments give the figures of docs/EXPERIMENTS.md."""
import contextlib
import hashlib
import io
from typing import Dict, List
from unittest import mock

from arena_lab.rules import networks
from arena_lab.rules.engines import TOP
from arena_lab.search.ring_bounds import most_moves
from arena_lab.sweep import grid, report, sweeping, tables
from arena_lab.sweep.sweeping import SweepJob
from bench import explore
from experiments import growth, make, table_rows
from experiments.division import Table, bound, of_ring3
from tests.support.matches import InFolder, program

DOCUMENT = make.DOCUMENT
SMALL = {
    "rings": ("rings", ["ring:4", "ring:6"]),
    "no-map": ("no_map", ["hypercube:3"]),
    "known-map": ("known_map", ["hypercube:3"]),
    "charts": ("charts", ["hypercube:3"]),
}
# the tables of means
SWEEPS = (
    "rings",
    "large-rings",
    "no-map",
    "large-no-map",
    "known-map",
    "large-known-map",
    "charts",
)
SMALL_EXPLORED = ("ring:3", "ring:4", "ring:5")
# rings on which so few schedules show the most moves that were hunted
SMALL_HUNTED = ("ring:4", "ring:8")
FEW = 150
HUNTED = 8


def table(name: str) -> List[List[str]]:
    """The rows of a table of the document, without its head."""
    return growth.cells_in(DOCUMENT.read_text(encoding="utf-8"), name)[1:]


def hunted_in(rows: Dict[str, List[str]]) -> Dict[str, int]:
    """The most moves that were hunted, of each network on which that was done."""
    return {
        network: int(row[HUNTED])
        for network, row in rows.items()
        if row[HUNTED].isdigit()
    }


def rows_by_network(name: str) -> Dict[str, List[str]]:
    return {row[0]: row for row in table(name)}


class Experiments(InFolder):
    def setUp(self) -> None:
        super().setUp()
        self.asked = table_rows.TableRequest(self.folder, ["--engine", "model"])

    def test_small_parts_of_the_sweeps(self) -> None:
        for name, (file, names) in SMALL.items():
            spec = grid.read_grid(table_rows.EXPERIMENTS / f"{file}.toml")._replace(
                names=names
            )
            work = SweepJob("", None)
            rows = [
                sweeping.row_for(case, *sweeping.played_case(work, spec, case), None)
                for case in spec.cases()
            ]
            groups = report.groups_of(
                [dict(zip(tables.COLUMNS, row)) for row in rows], spec
            )
            conditions = rows_by_network(name)
            hunt_result = hunted_in(conditions) if name == "rings" else {}
            made = (
                table_rows.charts_rows(groups)
                if name == "charts"
                else table_rows.rows_of(groups, hunt_result)
            )
            for row in made[1:]:
                with self.subTest(name, network=row[0]):
                    self.assertEqual(conditions[row[0]], list(row))

    def test_each_mean_is_of_all_black_holes(self) -> None:
        """Otherwise its interval says nothing of them."""
        for name in SWEEPS:
            spec = grid.read_grid(
                table_rows.EXPERIMENTS / f"{name.replace('-', '_')}.toml"
            )
            maximum = max(network.nodes for network in spec.networks.values()) - 1
            self.assertTrue(
                spec.holes == grid.DRAWN or spec.seeds >= maximum,
                f"{name}: draw its black holes",
            )
            with self.subTest(name):
                self.assertTrue(
                    all("±" in row[4] and "±" in row[6] for row in table(name)),
                    "make the table anew",
                )

    def test_small_hunts(self) -> None:
        for hunt in table_rows.hunts(FEW):
            if hunt.network in SMALL_HUNTED:
                with self.subTest(hunt.network):
                    self.assertEqual(
                        rows_by_network("rings")[hunt.network][HUNTED],
                        str(table_rows.hunted_most(hunt, self.asked)),
                    )

    def test_small_networks_that_were_explored(self) -> None:
        results = {tuple(row[:2]): row for row in table("explored")}
        self.assertEqual(len(results), len(table_rows.EXPLORED))
        for exploration in table_rows.EXPLORED:
            if exploration.network in SMALL_EXPLORED:
                request = self.asked._replace(engine=["--program", program()])
                row = list(table_rows.explored_row(exploration, request))
                with self.subTest(row[0], agents=row[1]):
                    self.assertEqual(results[tuple(row[:2])][2:-1], row[2:-1])

    def test_a_small_ring_that_was_explored_by_a_module(self) -> None:
        rows = table("modules")
        self.assertEqual(
            [(row[0], int(row[3])) for row in rows],
            [
                (f"ring:{nodes}", most_moves(nodes))
                for nodes in table_rows.RINGS_OF_MODULE
            ],
        )
        module = (TOP / table_rows.AGENTS / table_rows.MODULE).read_bytes()
        self.assertIn(
            hashlib.sha256(module).hexdigest()[:12],
            DOCUMENT.read_text(encoding="utf-8"),
        )
        with mock.patch.object(explore, "PROGRAM", program()):
            self.assertEqual(
                list(table_rows.module_row(table_rows.RINGS_OF_MODULE[0]))[:5],
                rows[0][:5],
            )

    def test_the_count_agrees_with_what_was_explored_hunted_and_drawn(self) -> None:
        exploration = {
            int(row[0].partition(":")[2]): int(row[3])
            for row in table("explored")
            if "`ring_step.py`" in row[1]
        }
        self.assertEqual(
            exploration,
            {nodes: most_moves(nodes) for nodes in table_rows.RINGS_EXPLORED},
        )
        for row in table("rings"):
            nodes = int(row[0].partition(":")[2])
            with self.subTest(nodes=nodes):
                self.assertEqual([int(row[5]), int(row[7])], [most_moves(nodes)] * 2)
        hunt_result = hunted_in(rows_by_network("rings"))
        self.assertEqual(
            hunt_result,
            {f"ring:{nodes}": most_moves(nodes) for nodes in (4, 8, 16, 32, 64)},
        )

    def test_the_search_by_thirds_stays_within_its_count(self) -> None:
        rows = table("thirds")
        self.assertEqual(
            [row[0] for row in rows], [f"ring:{nodes}" for nodes in table_rows.SIZES]
        )
        for row in rows:
            nodes = int(row[0].partition(":")[2])
            halves = most_moves(nodes)
            thirds = Table(nodes, of_ring3).moves()
            with self.subTest(nodes=nodes):
                self.assertEqual((row[3], row[6]), (str(halves), str(thirds)))
                shares = [f"{thirds / bound(nodes):.2f}", f"{thirds / halves:.2f}"]
                self.assertEqual(row[8:], [f"{bound(nodes):.0f}", *shares])
                match = [int(cell) for cell in (row[4], row[5]) if cell != "–"]
                self.assertTrue(all(moves <= thirds for moves in match))
                self.assertTrue(
                    all(int(cell) <= halves for cell in (row[1], row[2]) if cell != "–")
                )

    def test_teams_with_one_agent_too_few(self) -> None:
        for hunt in table_rows.TOO_FEW[:2]:
            row = list(table_rows.too_few_row(hunt, self.asked))
            with self.subTest(row[0]):
                self.assertIn(row, table("too-few"))

    def test_no_team_of_a_table_is_lost_whole(self) -> None:
        for name in SWEEPS:
            for row in table(name):
                with self.subTest(name, network=row[0]):
                    self.assertLess(int(row[-3]), int(row[1]))
                    self.assertEqual(row[2], row[3], "each run is solved")

    def test_the_picture_has_each_network_of_its_tables(self) -> None:
        document = DOCUMENT.read_text(encoding="utf-8")
        for series in growth.ALL_SERIES:
            result = growth.points(document, series)
            self.assertEqual(
                len(result), sum(len(table(name)) for name in series.tables)
            )
            for row in (
                row for name in series.tables for row in growth.rows_in(document, name)
            ):
                nodes = networks.network_named(row["network"]).nodes
                with self.subTest(series.name, network=row["network"]):
                    self.assertEqual(
                        f"{grid.BOUNDS[series.bound](nodes):.0f}", row[series.bound]
                    )
                    self.assertIn(
                        (
                            nodes,
                            max(
                                int(row[f"{it}: most"])
                                for it in ("fair", "slow-agents")
                            ),
                        ),
                        result,
                    )
        self.assertTrue(growth.svg_of(growth.draw_figure(document)).startswith("<svg"))

    def test_a_table_says_which_program_played(self) -> None:
        stream = io.StringIO()
        with mock.patch.dict(
            table_rows.TABLES,
            one=lambda request: table_rows.MadeTable(
                [("network",), ("ring:3",)], ["a command"]
            ),
        ), mock.patch(
            "sys.argv", ["make", "one", "--program", program()]
        ), contextlib.redirect_stdout(
            stream
        ):
            self.assertEqual(make.main(), 0)
        self.assertRegex(stream.getvalue(), r"\| ring:3 \|\n\nEngine: .*\. \d+ s on ")

    def test_a_table_is_put_into_the_document(self) -> None:
        text = "a\n<!-- table one -->\nold\n<!-- end of one -->\nb\n"
        self.assertEqual(
            make.insert_table(text, "one", "new\n"),
            "a\n<!-- table one -->\nnew\n<!-- end of one -->\nb\n",
        )
        with self.assertRaises(SystemExit):
            make.insert_table(text, "two", "new\n")
