"""The inputs of the benchmarks, the words of deliveries, and the table that the contest
reads."""
import subprocess
import sys
import tomllib
import unittest

from tests import needs
from tests.support.output import InTemporary
from bench import benchmarks
from bench import compare
from bench import figure_texts
from bench import figures
from arena_lab.rules.limits import MAX_TEXT
from bench import inputs
from bench import memory
from bench import rehearse
from examples import contest
from arena_lab.rules.printed import table
from arena_lab.rules import chacha8
from arena_lab.rules.model import Verdict
from arena_lab.rules.networks import text_of, torus


class Inputs(InTemporary):
    def test_a_torus_has_each_link_once(self) -> None:
        network = tomllib.loads(text_of(torus(3, 4)))
        ends = [(v, p) for v, p, _, _ in network["links"]] + [
            (w, q) for _, _, w, q in network["links"]
        ]
        self.assertEqual(
            sorted(ends), [(node, port) for node in range(12) for port in range(4)]
        )

    def test_tournaments_of_both_versions(self) -> None:
        for version, hole in ((1, {"hole": "none"}), (2, {"holes": []})):
            matches = tomllib.loads(inputs.tournament("n.toml", 2, 3, 8, version))[
                "match"
            ]
            self.assertEqual([match["keys"][2] for match in matches], ["k0-2", "k1-2"])
            self.assertEqual({name: matches[0].get(name) for name in hole}, hole)

    def test_scripts_fill_what_a_script_may_be(self) -> None:
        text, lines = rehearse.script(20_000)
        self.assertLessEqual(len(text), 20_000)
        self.assertGreater(len(text), 19_900)
        self.assertEqual(text.count("\n"), lines)
        self.assertGreater(len(compare.filled_script(compare.moves())), MAX_TEXT - 100)

    def test_times_are_compared(self) -> None:
        self.assertEqual(
            compare.compare_times(min, [[0.002, 0.004], [0.003, 0.008]]),
            "2.00 ms, 4.00 ms, ratio 0.50",
        )

    @needs("cc", "gcc")
    def test_a_run_is_measured(self) -> None:
        (self.folder / "in").write_text("text")
        self.assertEqual(
            inputs.printed_by("cat", [], self.folder / "in", self.folder), b"text"
        )
        for keeps in (False, True):
            result = inputs.run("cat", [], self.folder / "in", self.folder, keeps)
            self.assertGreater(result.seconds, 0)
            self.assertGreater(result.processor, 0)
            self.assertGreater(result.peak, 100)
        with self.assertRaises(subprocess.CalledProcessError):
            inputs.run("false", [], self.folder / "in", self.folder)
        words = ["-c", "held = b'x' * (32 * 1024 * 1024)"]
        run = inputs.median_run(
            3, sys.executable, words, self.folder / "in", self.folder
        )
        self.assertGreater(run.peak, 32 * 1024)


SMAPS = """\
00400000-0042b000 r-xp 00000000 fe:00 1 /work/program
Rss:                 100 kB
01000000-01100000 rw-p 00000000 00:00 0          [heap]
Size:               1024 kB
Rss:                   8 kB
7f0000000000-7f0000100000 rw-p 00000000 00:00 0
Rss:                  20 kB
7f0000200000-7f0000201000 ---p 00000000 00:00 0
Rss:                   0 kB
7f0000201000-7f0000a01000 rw-p 00000000 00:00 0
Rss:                  32 kB
7f0000a01000-7f0000a02000 rw-p 00000000 00:00 0
Rss:                   4 kB
7f0000a02000-7f0004000000 ---p 00000000 00:00 0
Rss:                   0 kB
7f0004000000-7f0004001000 rw-p 00000000 00:00 0
Rss:                   1 kB
7f0005001000-7f0005002000 ---p 00000000 fe:00 2 /work/library
Rss:                   0 kB
7f0005002000-7f0005003000 rw-p 00000000 fe:00 2 /work/library
Rss:                   2 kB
"""


class Memory(unittest.TestCase):
    def test_each_mapping_is_told_by_what_it_is_for(self) -> None:
        self.assertEqual(
            memory.parts(SMAPS),
            {memory.STACKS: 32, memory.HEAP: 8, memory.PIECES: 25, memory.REST: 102},
        )


class Figures(unittest.TestCase):
    def setUp(self) -> None:
        self.text = figures.PAGE.read_text(encoding="utf-8")

    def test_the_page_has_sections_of_benchmarks_and_nothing_else(self) -> None:
        self.assertEqual(figures.page(figures.sections_of(self.text)), self.text)

    def test_each_section_says_where_it_was_measured(self) -> None:
        sections = figures.sections_of(self.text)
        self.assertGreater(len(sections), 10)
        for name, section in sections.items():
            with self.subTest(name):
                self.assertEqual(len(figures.MEASURED_NOTE.findall(section)), 1)
                self.assertIn(f"\n## {benchmarks.BENCHMARKS[name].title}\n", section)

    def test_a_section_of_a_long_machine_is_wrapped_and_read_again(self) -> None:
        name = "waits"
        position = "`abc1234` with changes, 2026-01-02"
        machine = f"4 processors, {'fast ' * 20}ones"
        setting = benchmarks.Setting(figures.TOP, None, figures.TOP, position, machine)
        page = figures.page({name: figures.section(name, "| a |\n", setting)})
        self.assertEqual(figures.page(figures.sections_of(page)), page)
        self.assertIn(
            f"| Waiting | `abc1234` with changes | 2026-01-02 | {setting.build} | {machine} |\n",
            page,
        )
        self.assertLess(
            max(len(line) for line in page.splitlines() if not line.startswith("|")),
            121,
        )

    def test_lines_of_benchmarks_become_rows(self) -> None:
        flood = (
            "500 strangers a second: 50 of 50 teams solved their networks; the slowest enter took 176 ms, "
            "the slowest of 4430 commands 52 ms, 99 of 100 at most 16.9 ms\n"
        )
        self.assertIn(
            "| 500 | 50 of 50 | 176 | 4430 | 52 | 16.9 |\n",
            figure_texts.flood_text(flood),
        )
        self.assertIn(
            "| 16,383 looks | 9.4 | 1.5 |\n",
            figure_texts.looks_text("16,383 looks: 9.4 MB, 1.5 s\n"),
        )
        with self.assertRaisesRegex(ValueError, "no line reads"):
            figure_texts.looks_text("nothing\n")


class Words(unittest.TestCase):
    def test_the_first_words_of_the_zero_seed(self) -> None:
        published_value = bytes.fromhex(
            "3e00ef2f895f40d67f5bb8e81f09a5a12c840ec3ce9a7f3b181be188ef711a1e"
        )
        words = list(chacha8.block(bytes(32), 0, 0))[:8]
        self.assertEqual(
            b"".join(word.to_bytes(4, "little") for word in words), published_value
        )


class Tables(unittest.TestCase):
    ROWS = [("blue", Verdict("guess 1", 0, 0)), ("red", Verdict("solved", 1, 0))]

    def test_the_table_is_laid_out_as_the_arena_does(self) -> None:
        self.assertEqual(
            table(self.ROWS),
            (
                "  # team             outcome     moves lost\n"
                "  1 red              solved          1    0\n"
                "  2 blue             guess 1         0    0\n"
            ),
        )

    def test_the_contest_reads_the_outcomes(self) -> None:
        self.assertEqual(
            contest.outcomes(table(self.ROWS)), {"red": "solved", "blue": "guess 1"}
        )

    def test_the_contest_has_an_agent_for_each_key(self) -> None:
        matches = tomllib.loads((contest.TOP / contest.TOURNAMENT).read_text())["match"]
        keys = {match["team"]: len(match["keys"]) for match in matches}
        self.assertEqual(
            keys, {team: len(agents) for team, agents in contest.TEAMS.items()}
        )
