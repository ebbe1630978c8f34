"""Runs tools/build with a scripted prover, and checks its progress and the use of
earlier times."""
import contextlib
import io
import os
import pathlib
import sys
import tempfile
import time
import unittest
import unittest.mock

from tests import TOP
from tests.support.output import run_call, write
from tests.test_gate import module
from tools.prove import bar, prover, version
from tools.prove.forecast import (
    LAST_PART,
    SECONDS,
    TRUST,
    Forecast,
    seconds_of,
    text_of,
)

LIBRARIES = {
    "low": [],
    "left": ["low"],
    "right": ["low", "json"],
    "bhs_main": ["left", "right"],
}
# the player is another program
ALL = {**LIBRARIES, "bhs_player": ["right"]}
RATTLE = f"""#!{sys.executable}
import pathlib, sys
words = sys.argv[1:]
name = words[words.index("--crate-name") + 1]
if "broken" in pathlib.Path("src/lib.rt").read_text():
    sys.exit("not proved")
pathlib.Path(words[words.index("-o") + 1]).write_text(name)
"""
LINK = f"""#!{sys.executable}
import pathlib, sys
words = sys.argv[1:]
pathlib.Path(words[words.index("-o") + 1]).write_text("the program")
"""


class Forecasts(unittest.TestCase):
    def forecast(self, workers: int) -> Forecast:
        return Forecast(
            LIBRARIES,
            {*LIBRARIES},
            {"low": 100, "left": 100, "right": 200, "bhs_main": 100},
            workers,
        )

    def test_at_first_it_is_what_earlier_runs_took(self) -> None:
        self.assertEqual(self.forecast(1).seconds_left(0), 500)
        # low, right and bhs_main wait for each other
        self.assertEqual(self.forecast(4).seconds_left(0), 400)
        self.assertEqual(self.forecast(4).share(0), 0)

    def test_what_runs_and_what_is_done_counts(self) -> None:
        forecast = self.forecast(1)
        forecast.begin("low", 10)
        self.assertAlmostEqual(forecast.share(60), 0.1)
        self.assertEqual(forecast.seconds_left(60), 450)
        forecast.end("low", 110)
        self.assertAlmostEqual(forecast.share(110), 0.2)
        self.assertEqual(forecast.seconds_left(110), 400)

    def test_a_slow_machine_takes_longer(self) -> None:
        forecast = self.forecast(1)
        forecast.begin("low", 0)
        forecast.end("low", 300)
        pace = (300 + TRUST) / (100 + TRUST)
        self.assertAlmostEqual(forecast.seconds_left(300), 400 * pace)

    def test_a_crate_that_takes_longer_is_not_taken_as_done(self) -> None:
        forecast = self.forecast(1)
        forecast.begin("low", 0)
        self.assertEqual(forecast.seconds_left(5000), 400 + LAST_PART * 100)
        self.assertLess(forecast.share(5000), 0.2)

    def test_all_done_and_nothing_to_do(self) -> None:
        forecast = Forecast(LIBRARIES, {"low"}, {}, 2)
        self.assertEqual(forecast.seconds_left(0), 1)
        forecast.begin("low", 0)
        forecast.end("low", 1)
        self.assertEqual((forecast.share(1), forecast.seconds_left(1)), (1, 0))
        self.assertEqual(Forecast(LIBRARIES, set(), {}, 2).share(0), 1)

    def test_the_file_names_the_crates(self) -> None:
        text = SECONDS.read_text()
        self.assertEqual(text_of(seconds_of(text), text), text)
        # a crate without a time gets the median: one may wait for the next gate that is
        # measured
        seconds = set(seconds_of(text))
        crates = set(prover.libraries_of())
        self.assertLessEqual(seconds, crates)
        self.assertLessEqual(len(crates - seconds), 1)


class Build(unittest.TestCase):
    def setUp(self) -> None:
        self.top = pathlib.Path(self.enterContext(tempfile.TemporaryDirectory()))
        self.crates = self.top / "crates"
        kit = self.top / "kit"
        for name in ALL:
            write(self.crates / name / "src" / "lib.rt", "whole\n")
        write(kit / "KIT-ID", "kit 1\n")
        for name, text in (("rattle", RATTLE), ("rattle-link", LINK)):
            write(kit / "bin" / name, text, 0o755)
        for name in ("crates.txt", "HANDLES", "tools/prove/is_current"):
            write(self.top / name, (TOP / name).read_text(), 0o755)
        self.build = module(TOP / "tools" / "build")
        self.record = prover.record_of(self.crates, "bhs_main")
        for owner, result in (
            (prover, {"BUILT": self.crates}),
            (self.build, {"libraries_of": lambda: ALL}),
        ):
            self.enterContext(
                unittest.mock.patch.multiple(
                    owner, CRATES=self.crates, KIT=kit, TOP=self.top, **result
                )
            )
        self.enterContext(unittest.mock.patch.object(version, "KIT", kit))

    def output(self, status: int) -> str:
        errors = io.StringIO()
        with contextlib.redirect_stdout(errors):
            with unittest.mock.patch.object(self.build, "BAR", bar.Bar(errors, 0)):
                self.assertEqual(self.build.main([]), status)
        return errors.getvalue()

    def test_it_shows_what_is_done_and_what_is_left(self) -> None:
        output = self.output(0)
        self.assertIn("meanwhile `./arena` plays without a proof", output)
        self.assertRegex(
            output,
            r"arena: \[\.{20}\]   \d% 0 of 5 crates are proved, \d.* s, (about \d+ min|less than a "
            r"minute) left; now low\n",
        )
        self.assertRegex(
            output,
            r"\[#+\.+\] +\d+% [34] of 5 crates are proved, \d.* s, .* left; now bhs_main",
        )
        self.assertRegex(
            output, r"all 5 crates are proved and the programs are built, \d.* s\n$"
        )
        self.assertEqual(self.record.with_name("bhs_main").read_text(), "the program")
        self.assertIn("\n# toolchain kit 1\n", self.record.read_text())
        self.assertTrue(prover.is_current(self.record))

    def test_files_are_read_again_only_if_one_was_touched(self) -> None:
        self.output(0)
        self.assertTrue(prover.is_current(self.record))
        write(self.top / "read", "")
        words = write(
            self.top / "words" / "sha256sum",
            f'#!/bin/sh\necho read >>{self.top}/read\nexec /usr/bin/sha256sum "$@"\n',
            0o755,
        )
        source = self.crates / "left" / "src" / "lib.rt"
        text = source.read_text()
        path = f"{words.parent}:{os.environ['PATH']}"
        with unittest.mock.patch.dict(os.environ, PATH=path):
            for file, touched_value, is_same, reads in (
                (source, None, True, 0),
                (source, text, True, 1),
                (source, None, True, 1),
                (source, text[::-1], False, 2),
                (source, None, False, 3),
                (source, text, True, 4),
                (source, None, True, 4),
                (self.record, self.record.read_text(), True, 5),
                (self.record, self.record.read_text().replace("0", "1"), False, 6),
            ):
                if touched_value is not None:
                    write(file, touched_value)
                    os.utime(file, (1, 1))
                self.assertEqual(prover.is_current(self.record), is_same)
                lines = (self.top / "read").read_text().splitlines()
                self.assertEqual(len(lines), reads)

    def test_words_prove_nothing(self) -> None:
        for words, status in ((["--help"], 0), (["-h"], 0), (["bhs_net"], 2)):
            result, output, _ = run_call(self.build.main, words)
            self.assertEqual(result, status)
            self.assertIn("tools/build", output)
        self.assertFalse((self.crates / "low" / "out").exists())

    def test_what_is_built_is_not_proved_again(self) -> None:
        self.output(0)
        late = time.time() + 10
        os.utime(self.crates / "left" / "src" / "lib.rt", (late, late))
        self.assertEqual(
            self.output(0),
            "arena: the programs are proved and built of the sources as they are\n",
        )
        source = write(self.crates / "left" / "src" / "lib.rt", "changed\n")
        self.assertEqual(
            self.build.unbuilt(LIBRARIES, ["low", "left", "right", "bhs_main"]),
            {"left", "bhs_main"},
        )
        output = self.output(0)
        self.assertIn("3 of 5 crates are proved", output)
        self.assertNotIn("the first time", output)
        write(source, "broken\n")
        output = self.output(1)
        self.assertIn("left was not proved: see crates/left/out/build.log\n", output)
        self.assertNotIn("all 5 crates are proved", output)

    def test_a_source_that_is_put_in_its_place_is_proved_whatever_its_time(
        self,
    ) -> None:
        self.output(0)
        source = write(self.crates / "low" / "src" / "lib.rt", "an older one\n")
        os.utime(source, (1, 1))
        self.assertIn("0 of 5 crates are proved", self.output(0))

    def test_what_changes_meanwhile_is_not_recorded_as_proved(self) -> None:
        change = f"import pathlib\npathlib.Path({str(self.crates / 'low' / 'src' / 'lib.rt')!r}).write_text('new')\n"
        write(self.top / "kit" / "bin" / "rattle-link", LINK + change, 0o755)
        self.assertIn(
            "arena: the sources have changed meanwhile: run it again\n", self.output(1)
        )
        self.assertFalse(prover.is_current(self.record))
        self.output(0)
        self.assertTrue(prover.is_current(self.record))

    def test_a_program_that_another_has_replaced_is_built_again(self) -> None:
        self.output(0)
        program = write(self.record.with_name("bhs_main"), "echo")
        self.assertIn("4 of 5 crates are proved", self.output(0))
        self.assertEqual(program.read_text(), "the program")


class GateTimes(unittest.TestCase):
    def test_it_keeps_what_the_proofs_took(self) -> None:
        times = module(TOP / "tools" / "prove" / "gate_times")
        path = (
            pathlib.Path(self.enterContext(tempfile.TemporaryDirectory())) / "seconds"
        )
        path.write_text("# shares\nold 3\n")
        times.keep(
            {
                (1, ("low", "proof")): 2.6,
                (2, ("low", "proof")): 1.0,
                (3, ("low", "edits")): 9,
                (4, ("high", "proof")): 5,
            },
            path,
        )
        self.assertEqual(path.read_text(), "# shares\nhigh 5\nlow 4\n")

    def test_its_help_names_what_it_takes(self) -> None:
        self.assertIn("--keep", module(TOP / "tools" / "prove" / "gate_times").__doc__)
