"""`explore` finds the same by any number of processes and by a cluster, and goes on
behind the rows of a folder."""
import re
import subprocess
import sys
from typing import List, Tuple
from unittest import mock

from arena_lab.__main__ import main
from arena_lab.search.findings import Exceeds, ExploreAnswer
from arena_lab.search.match_results import MatchResult
from arena_lab.sweep import proofs
from arena_lab.sweep.tables import TableError
from tests.integration.search.exploring import InExplore
from tests.integration.search.test_cluster import OnCluster
from tests.support.matches import RING, RING_STEP, program
from tests.support.output import run_call

# figures of the lines about matches, without times and checks
TELLS = re.compile(r"^home .*, (?=[\d.]+ s)|^most moves.*", re.MULTILINE)
WRONG = "examples/agents/faulty/reads_once.py {nodes}"
# an agent that reads a plan from a file beside it
PLANNED = """
import pathlib


def search(agent, key):
    port = int((pathlib.Path(__file__).parent / "plan.json").read_text())
    agent.enter(key)
    agent.depart(1)
    agent.accuse(port)
"""


class Workers(InExplore):
    def explore(self, *words: object) -> Tuple[int, List[str]]:
        """Returns the status, and the lines about matches."""
        return self.command("--agent", RING.words, *words), TELLS.findall(self.output)

    def rows(self) -> str:
        return (self.folder / "out" / proofs.MATCHES).read_text(encoding="utf-8")

    def test_any_number_of_processes_finds_the_same(self) -> None:
        status, alone = self.explore("--network", "ring:3..4")
        self.assertEqual((status, len(alone)), (0, 7), self.output)
        self.assertEqual(
            self.explore("--network", "ring:3..4", "--workers", 3), (0, alone)
        )
        self.assertIn("checked, and all agree", self.output)
        self.assertRegex(
            self.output,
            r"20 drawn schedules, \d+ histories told in other processes, the Python model's "
            "search of 3 of 3 matches",
        )

    def test_a_schedule_that_fails_is_told_and_kept(self) -> None:
        words = ["--network", "ring:4", "--agent", WRONG]
        self.assertEqual(self.command(*words), 1, self.output)
        alone = TELLS.findall(self.output)
        self.assertEqual(self.command(*words, "--workers", 3), 1, self.output)
        self.assertEqual(TELLS.findall(self.output), alone)
        self.assertTrue((self.folder / "find" / "schedule.txt").exists())

    def test_drawn_schedules_too(self) -> None:
        results = []
        for extra in ([], ["--workers", 2]):
            self.assertEqual(
                self.explore("--network", "ring:4", "--draws", 50, *extra)[0],
                0,
                self.output,
            )
            results.append(
                re.findall(r"^home .* steps|^most moves.*", self.output, re.MULTILINE)
            )
        self.assertEqual(len(results[0]), 4)
        self.assertEqual(results[0], results[1])

    def test_what_is_written_is_not_tried_again(self) -> None:
        words = [
            "--network",
            "ring:3..4",
            "--out",
            self.folder / "out",
            "--bound",
            "2 n log2 n",
        ]
        status, output = self.explore(*words)
        rows = self.rows()
        self.assertEqual((status, rows.count("\n")), (0, 6), self.output)
        self.assertIn("ring:4,4,4,0,2,2,2,", rows)
        self.assertTrue(
            (self.folder / "out" / proofs.PLOT).read_text().startswith("<svg")
        )
        # the last of two rows was not written whole, and one is missing
        lines = rows.splitlines(keepends=True)
        (self.folder / "out" / proofs.MATCHES).write_text(
            "".join(lines[:4]) + lines[4][:9]
        )
        self.assertEqual(
            self.explore(*words, "--workers", 2, "--max-states", 50_000), (0, output)
        )
        self.assertEqual(self.output.count("as it was written before"), 3)
        self.assertEqual(self.rows(), rows)

    def test_rows_of_an_agent_whose_modules_stand_beside_it_are_taken_up(self) -> None:
        """A new process, which has not played the agent before, continues the table."""
        words = [
            "--network",
            "ring:3",
            "--agent",
            RING_STEP.words,
            "--program",
            program(),
            "--out",
            str(self.folder / "out"),
        ]
        for is_known in (False, True):
            result = subprocess.run(
                [sys.executable, "-m", "arena_lab", "explore", *words],
                capture_output=True,
                text=True,
            )
            self.assertEqual(result.returncode, 0, result.stderr)
            self.assertEqual("as it was written before" in result.stdout, is_known)

    def test_rows_of_other_matches_or_another_quota_are_refused(self) -> None:
        words = ["--network", "ring:3", "--out", self.folder / "out"]
        self.assertEqual(self.explore(*words)[0], 0, self.output)
        self.assertEqual(self.explore(*words, "--quota", 900)[0], 2)
        self.assertIn("has rows that were made otherwise", self.output)
        path = self.folder / "out" / proofs.MATCHES
        path.write_text(path.read_text().replace(",4,", ",5,", 1))
        self.assertEqual(self.explore(*words)[0], 2)
        self.assertIn("is not as it was written", self.output)

    def test_rows_of_an_agent_whose_file_has_changed_are_refused(self) -> None:
        (self.folder / "planned.py").write_text(PLANNED, encoding="utf-8")
        plan = self.folder / "plan.json"
        words = [
            "--network",
            "ring:3",
            "--hole",
            1,
            "--agents",
            1,
            "--agent",
            self.folder / "planned.py",
            "--out",
            self.folder / "out",
        ]
        plan.write_text("1")
        for _ in range(2):
            self.assertEqual(self.command(*words), 0, self.output)
        plan.write_text("0")
        self.assertEqual(self.command(*words), 2, self.output)
        self.assertIn(f"rows that were made otherwise: {plan} differ", self.output)

    def test_what_fails_or_is_not_tried_gets_no_row(self) -> None:
        words = ["--network", "ring:4", "--agent", WRONG]
        self.assertEqual(
            self.command(*words, "--out", self.folder / "out"), 1, self.output
        )
        self.assertNotIn("\n2,", self.rows())
        game, fixture = self.game(*words, "--hole", "1")
        folder = proofs.Folder(self.folder / "few", [game], program())
        with self.assertRaisesRegex(TableError, "writes what it finds alone"):
            folder.add(
                MatchResult(
                    fixture, ExploreAnswer(Exceeds(0, 11), 1.0, states=1), mock.Mock()
                )
            )

    def test_words_that_do_not_belong_together(self) -> None:
        for words, why in (
            (["--out", "x", "--draws", 5], "--out is for all schedules"),
            (["--workers", 2, "--search", "model"], "need the program's search"),
            (["--bound", "n^2"], "--bound is for the plot"),
        ):
            self.assertEqual(self.explore("--network", "ring:3", *words)[0], 2)
            self.assertIn(why, self.output)


class Clusters(OnCluster):
    def test_a_cluster_proves_the_same(self) -> None:
        address = self.scheduler()
        results = []
        self.worker(address)
        for out, extra in (("here", []), ("there", ["--cluster", address])):
            status, output, errors = run_call(
                main,
                [
                    "explore",
                    "--network",
                    "ring:3",
                    "--agent",
                    RING.words,
                    "--program",
                    program(),
                    "--out",
                    str(self.folder / out),
                    *extra,
                ],
            )
            self.assertEqual(status, 0, output + errors)
            results.append((self.folder / out / proofs.MATCHES).read_bytes())
        self.assertEqual(results[0], results[1])
