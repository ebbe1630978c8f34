"""How tools/gate copies what is to be proved, hears what is proved, and counts."""
import contextlib
import importlib.machinery
import importlib.util
import io
import pathlib
import subprocess
import sys
import tempfile
import unittest
import unittest.mock
from typing import List, Tuple

from tests import TOP
from tests.runners import integration_tests
from tests.support.output import run_call, write
from tools import parts
from tools.prove import prover


def module(path: pathlib.Path):
    """A program without the ending of a module."""
    loader = importlib.machinery.SourceFileLoader(path.name, str(path))
    module = importlib.util.module_from_spec(
        importlib.util.spec_from_loader(path.name, loader)
    )
    loader.exec_module(module)
    return module


gate = module(TOP / "tools" / "gate")


def files_of(folder: pathlib.Path) -> List[str]:
    return sorted(
        str(path.relative_to(folder)) for path in folder.rglob("*") if path.is_file()
    )


class Gate(unittest.TestCase):
    def run_part(self, text: str) -> Tuple[Tuple, str]:
        result, output, _ = run_call(gate.run, [sys.executable, "-c", text])
        return result, output

    def test_the_last_line_is_held_back(self) -> None:
        text = "print('1 passed, 0 failed'); print('more'); print('2 passed, 3 failed'); exit(1)"
        self.assertEqual(
            self.run_part(text), ((1, (2, 3), False), "1 passed, 0 failed\nmore\n")
        )
        self.assertEqual(self.run_part("print('more')"), ((0, None, False), "more\n"))

    def test_a_command_that_fails_counts_so(self) -> None:
        for status, counts, expectation in (
            (0, None, (1, 0)),
            (1, None, (0, 1)),
            (1, (5, 0), (5, 1)),
            (1, (5, 2), (5, 2)),
        ):
            self.assertEqual(
                gate.count_tests(parts.CommandEnd(status, counts)), expectation
            )

    def test_a_command_that_plays_nothing_and_skips_nothing_fails(self) -> None:
        self.assertEqual(gate.count_tests(parts.CommandEnd(0, (0, 0))), (0, 1))
        self.assertEqual(
            gate.count_tests(parts.CommandEnd(0, (0, 0), has_skipped=True)), (0, 0)
        )

    def test_what_was_skipped_is_kept_for_the_end(self) -> None:
        with unittest.mock.patch.object(parts, "skip_reasons", []):
            output = "print('skipped: one: no spin'); print('2 passed, 0 failed')"
            self.assertEqual(self.run_part(output), ((0, (2, 0), True), ""))
            with unittest.mock.patch.object(gate.shutil, "which", return_value=None):
                self.assertTrue(gate.lacks_compiler(["examples/contest.py"]))
                self.assertFalse(gate.lacks_compiler(["-m", "tests.hostile.spoilers"]))
            self.assertEqual(
                parts.skip_reasons,
                ["one: no spin", "examples/contest.py: Debian's gcc is not installed"],
            )

    def test_a_copy_is_proved_and_what_was_built_comes_back(self) -> None:
        tree, room = (
            pathlib.Path(self.enterContext(tempfile.TemporaryDirectory()))
            for _ in range(2)
        )
        for path in (
            "crates.txt",
            "HANDLES",
            "crates/low/src/lib.rt",
            "crates/low/must-fail/one.edit",
            "crates/low/out/rlib/old",
            "crates/low/out/kept",
        ):
            write(tree / path, "")
        with unittest.mock.patch.multiple(gate, TOP=tree, CRATES=tree / "crates"):
            crates = gate.copy_to(room)
            self.assertEqual(
                files_of(room), ["HANDLES", "crates.txt", "crates/low/src/lib.rt"]
            )
            write(crates / "low" / "out" / "rlib" / "new", "")
            gate.take_from(crates)
        self.assertEqual(
            files_of(tree / "crates" / "low" / "out"), ["kept", "rlib/new"]
        )

    def test_what_is_recorded_is_the_copy_that_was_proved(self) -> None:
        tree, room = (
            pathlib.Path(self.enterContext(tempfile.TemporaryDirectory()))
            for _ in range(2)
        )
        check = "tools/prove/is_current"
        for path in (
            "crates.txt",
            "HANDLES",
            "crates/low/src/lib.rt",
            "crates/bhs_main/src/main.rt",
            check,
        ):
            write(tree / path, (TOP / path).read_text() if path == check else "")
        (tree / check).chmod(0o755)
        with unittest.mock.patch.multiple(
            gate, TOP=tree, CRATES=tree / "crates"
        ), unittest.mock.patch.object(prover, "TOP", tree):
            crates = gate.copy_to(room)
            for path in ("low/out/rlib/low.rlib/format", "bhs_main/out/bhs_main"):
                write(crates / path, "")
            gate.record_all(room, {"low": [], "bhs_main": ["low"]}, ["bhs_main"])
            gate.take_from(crates)
            records = [
                prover.record_of(tree / "crates", name) for name in ("low", "bhs_main")
            ]
            self.assertEqual(
                [prover.is_current(record) for record in records], [True, True]
            )
            (tree / "crates" / "low" / "src" / "lib.rt").write_text(
                "changed while the copy was proved\n"
            )
            self.assertEqual(
                [prover.is_current(record) for record in records], [False, False]
            )

    def edits_after(self, *lines: str):
        """What is tried, and counted, of the edits of two crates after these lines of
        `rt ci`."""
        crates = pathlib.Path(self.enterContext(tempfile.TemporaryDirectory()))
        for name in ("low", "high"):
            write(crates / name / "must-fail" / "one.edit", "")
        trial = []

        def tries(words, **_):
            trial.append(words[-1])
            return subprocess.CompletedProcess(
                words, 0, f"edit {words[-1]}/one: refused\n1 passed, 0 failed\n"
            )

        libraries = {"low": [], "high": ["low"]}
        with unittest.mock.patch.multiple(
            gate, CRATES=crates, libraries_of=lambda: libraries
        ), unittest.mock.patch.object(
            parts.subprocess, "run", tries
        ), contextlib.redirect_stdout(
            io.StringIO()
        ) as output:
            background = gate.Background()
            edits = gate.Edits(background, crates)
            for line in lines:
                edits.hear(line)
            background.has_all.set()
            counts = edits.wait()
        return sorted(trial), counts, output.getvalue()

    def test_edits_are_tried_once_what_their_crate_stands_on_is_proved(self) -> None:
        self.assertEqual(
            self.edits_after("rt: low proved")[:2], (["high", "low"], (2, 0))
        )
        trial, counts, output = self.edits_after(
            "rt: low NOT PROVED", "rt: low: its tests are proved"
        )
        self.assertEqual((trial, counts), (["low"], (1, 1)))
        self.assertIn("edit low/one: refused\n", output)
        self.assertIn("the edits of high are not tried", output)

    def test_what_an_earlier_run_proved_is_proved(self) -> None:
        record = "is kept: an earlier run on this machine proved the same files over the same libraries"
        self.assertEqual(
            self.edits_after(f"rt: low {record}")[:2], (["high", "low"], (2, 0))
        )

    def test_all_is_proved_anew_where_something_is_kept(self) -> None:
        for kept_folder, last in ((gate.TOP, "--anew"), (gate.TOP / "nowhere", "ci")):
            with unittest.mock.patch.object(gate, "KEPT_FOLDER", kept_folder):
                self.assertEqual(gate.words_of_ci(["--anew"])[-1], last)

    def test_other_words_run_nothing(self) -> None:
        status, output, _ = run_call(gate.main, ["anew"])
        self.assertEqual(status, 2)
        self.assertIn("tools/gate [--anew | --played | --quick]", output)


class Quick(unittest.TestCase):
    def run_quickly(self, *failing: str) -> Tuple[int, List[str], List[List[str]]]:
        """The exit status and the lines of `--quick`, where the commands with these
        words fail, and the commands."""
        commands = []

        def runs(words, **_):
            commands.append(words[words.index("-m") + 1 :])
            status = int(bool({*words} & {*failing}))
            return subprocess.CompletedProcess(
                words, status, f"{1 - status} passed, {status} failed\n"
            )

        def plays(words, *_, **__):
            result = runs(words)
            return parts.CommandEnd(result.returncode, parts.counts_in(result.stdout))

        with unittest.mock.patch.multiple(
            parts, failures=[], skip_reasons=[]
        ), unittest.mock.patch.object(
            parts.subprocess, "run", runs
        ), unittest.mock.patch.object(
            gate.packages, "install", return_value=""
        ), unittest.mock.patch.multiple(
            gate.quick, run=plays, is_compiled=lambda: True
        ):
            status, output, _ = run_call(gate.main, ["--quick"])
        return status, output.splitlines(), commands

    def test_it_compiles_and_plays_and_says_what_is_left_out(self) -> None:
        status, lines, commands = self.run_quickly()
        self.assertEqual((status, lines[-1]), (0, f"{len(commands)} passed, 0 failed"))
        self.assertRegex(lines[-2], "^left out, `.ci/run` has it: proofs, edits, instr")
        for name in ("tools.prove.unproved", "tests.runners.library_tests"):
            self.assertIn([name], commands)
        self.assertIn(["tests.runners.program_tests", gate.quick.PROGRAM], commands)
        self.assertEqual(
            commands[-1],
            ["tests.runners.integration_tests", gate.quick.PROGRAM, "--quick"],
        )

    def test_searches_are_left_out(self) -> None:
        every = set(integration_tests.file_names(False))
        quick = set(integration_tests.file_names(True))
        self.assertIn("rules.test_networks", quick)
        self.assertLessEqual(quick, every)
        packages_left_out = {name.partition(".")[0] for name in every - quick}
        self.assertEqual(packages_left_out, {"play", "search", "sweep"})

    def test_what_fails_is_named_and_counted(self) -> None:
        status, lines, commands = self.run_quickly("tests.runners.library_tests")
        self.assertEqual(
            (status, lines[-1]), (1, f"{len(commands) - 1} passed, 1 failed")
        )
        self.assertIn("-m tests.runners.library_tests: 0 passed, 1 failed", lines[-4:])

    def test_the_command_of_the_gate_passes_words_on(self) -> None:
        result = subprocess.run(
            [TOP / ".ci" / "run", "--help"], capture_output=True, text=True
        )
        self.assertEqual(result.returncode, 0)
        self.assertIn("--quick", result.stdout)
