"""`explore --family` by the program: rows of all matches, going on after a stop, and the
first match that is not solved."""
from typing import List
from unittest import mock

from arena_lab.play.parallel import Parallelism
from arena_lab.sweep.family_folders import COLUMNS, MATCHES
from arena_lab.sweep.tables import cells_in
from tests.integration.search.exploring import InExplore

# a ring of four with 2 classes of black holes, each with some of the numberings of ports
FAMILY = ("--family", "nodes:3..4", "--degree-at-most", "2", "--ports", "drawn:3")
# agents that know a ring of this size solve it, whatever its ports
TEAM = ("--agent", "examples/agents/ring_step.py {nodes}", "--check", "0")


class FamilySearches(InExplore):
    def setUp(self) -> None:
        super().setUp()
        self.out = self.folder / "family"

    def explore_family(self, *words: object) -> int:
        return self.command(*FAMILY, *TEAM, "--out", self.out, *words)

    def rows(self) -> List[List[str]]:
        return cells_in(self.out / MATCHES, COLUMNS)

    def test_each_match_has_a_row_and_a_line_sums_up(self) -> None:
        self.assertEqual(self.explore_family("--workers", 2), 0, self.output)
        rows = [dict(zip(COLUMNS, row)) for row in self.rows()]
        max_moves = max(int(row["moves"]) for row in rows)
        self.assertIn(f"{len(rows)} matches: every schedule solves each;", self.output)
        self.assertIn(f"most moves {max_moves}, most agents lost 1\n", self.output)
        self.assertEqual({row["nodes"] for row in rows}, {"3", "4"})
        self.assertEqual({row["hole"] for row in rows}, {"1", "2", "3"})
        self.assertEqual(rows[0]["links"].count("-"), 3)

    def test_the_same_command_goes_on_and_gives_the_same_rows(self) -> None:
        self.assertEqual(self.explore_family(), 0, self.output)
        text = (self.out / MATCHES).read_bytes()
        lines = text.splitlines(keepends=True)
        # half a row is dropped
        (self.out / MATCHES).write_bytes(b"".join(lines[:4]) + lines[4][:9])
        counts: List[int] = []

        def note(
            self: Parallelism, job: object, cases: List[object], **way: bool
        ) -> object:
            counts.append(len(cases))
            return results(self, job, cases, **way)  # type: ignore[arg-type]

        results = Parallelism.results
        with mock.patch.object(Parallelism, "results", note):
            self.assertEqual(self.explore_family(), 0, self.output)
        self.assertEqual(counts, [len(lines) - 4])
        self.assertEqual((self.out / MATCHES).read_bytes(), text)

    def test_rows_of_other_agents_or_matches_are_refused(self) -> None:
        self.assertEqual(self.explore_family(), 0, self.output)
        for words in (("--ports", "all"), ("--agents", 3), ("--quota", 999)):
            with self.subTest(words=words):
                self.assertEqual(self.explore_family(*words), 2)
                self.assertIn("name another folder by --out", self.output)

    def test_the_first_match_that_is_not_solved_is_told_and_kept(self) -> None:
        words = ("--degree-at-most", 3, "--quota", 200)
        self.assertEqual(self.explore_family(*words), 1)
        self.assertRegex(
            self.output, r"match \d+ \(4 nodes, 5 links, home 0, hole \d\)"
        )
        self.assertIn("a schedule fails", self.output)
        self.assertTrue((self.folder / "find").is_dir())
        # those before it have rows
        self.assertGreater(len(self.rows()), 3)

    def test_options_of_one_network_are_refused(self) -> None:
        for words, option in (
            (("--network", "ring:5"), "--network"),
            (("--hole", "1"), "--hole"),
            (("--home", "2"), "--home"),
            (("--draws", "9"), "--draws"),
            (("--search", "model"), "search"),
        ):
            with self.subTest(option=option):
                self.assertEqual(self.explore_family(*words), 2)
                self.assertIn(option, self.output)
        self.assertEqual(
            self.command("--network", "ring:4", *TEAM, "--ports", "drawn:3"), 2
        )
        self.assertIn("need --family", self.output)

    def test_a_family_of_too_many_matches_is_refused(self) -> None:
        with mock.patch("arena_lab.commands.explore.MAX_MATCHES", 3):
            self.assertEqual(self.explore_family(), 2)
        self.assertIn("has more than 3 matches", self.output)
