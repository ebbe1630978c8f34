"""A sweep gives the same rows by any number of workers, by either engine, and after an
interruption."""
import functools
import hashlib
import pathlib
import re
import signal
import subprocess
import sys
import time
from typing import List, Tuple

from arena_lab.__main__ import main
from arena_lab.play import kept_matches
from arena_lab.rules.engines import BY_MODEL, TOP, name_of
from arena_lab.sweep import sweeping, tables
from tests.support.matches import InFolder, program
from tests.support.output import run_call

TEXT = """title = "A <small> trial"
networks = ["ring:5", "ring:8"]
schedulers = ["fair", "slow-agents"]
seeds = 6
bound = "2 n log2 n"
[[team]]
name = "right"
agent = "examples/agents/ring.py {nodes}"
[[team]]
name = "wrong"
agent = "examples/agents/faulty/reads_once.py {nodes}"
"""
MODEL = ["--engine", "model"]


class Sweeps(InFolder):
    def setUp(self) -> None:
        super().setUp()
        self.file = self.folder / "sweep.toml"
        self.file.write_text(TEXT)

    def words(self, out: str, *extra: str) -> List[str]:
        return ["sweep", str(self.file), "--out", str(self.folder / out), *extra]

    def swept(self, out: str, *extra: str) -> bytes:
        """The rows of a sweep in which a team is wrong."""
        status, output, _ = run_call(main, self.words(out, *extra))
        self.assertEqual(status, 1)
        self.assertRegex(output, r"48 runs on .*: solved \d+; failed [1-9]")
        return (self.folder / out / tables.RUNS).read_bytes()

    def test_the_rows_are_the_same_by_either_engine_and_by_more_workers(self) -> None:
        rows = self.swept("program", "--workers", "2", "--program", program())
        self.assertEqual(self.swept("model", "--workers", "1", *MODEL), rows)
        self.assertEqual(
            self.swept("more", "--workers", "3", "--program", program(), *MODEL), rows
        )
        self.check_report(self.folder / "program", name_of(program()))
        self.check_report(self.folder / "more", BY_MODEL)

    def check_report(self, folder: pathlib.Path, engine: str) -> None:
        page = (folder / sweeping.REPORT).read_text()
        self.assertIn("A &lt;small&gt; trial", page)
        self.assertIn(f"played and judged by {engine}", page)
        links = re.findall('href="(worst/[^"]*)"', page)
        self.assertEqual(len(set(links)), 4)
        digests = {
            row["run"]: row["replay"] for row in tables.rows_in(folder / tables.RUNS)
        }
        for link in links:
            self.assertTrue(link.endswith(".html") and (folder / link).is_file(), link)
            path = folder / pathlib.Path(link).parent
            replay = (path / kept_matches.REPLAY).read_bytes()
            self.assertEqual(hashlib.sha256(replay).hexdigest(), digests[path.name])
        self.assertFalse(re.findall('(?:src|href)="(?:https?:)?//', page))

    def test_it_goes_on_behind_the_last_whole_row(self) -> None:
        rows = self.swept("whole", *MODEL)
        report = (self.folder / "whole" / sweeping.REPORT).read_bytes()
        self.swept("torn", *MODEL)
        path = self.folder / "torn" / tables.RUNS
        path.write_bytes(rows[: len(rows) // 2])
        self.assertEqual(self.swept("torn", "--workers", "2", *MODEL), rows)
        self.assertEqual((self.folder / "torn" / sweeping.REPORT).read_bytes(), report)

    def test_who_interrupts_it_is_told_that_it_can_go_on(self) -> None:
        self.file.write_text(TEXT.replace("seeds = 6", "seeds = 500"))
        words = [
            sys.executable,
            "-m",
            "arena_lab",
            *self.words("stopped", "--workers", "2", *MODEL),
        ]
        # a shell starts what runs in the background with this signal ignored
        heeds = functools.partial(signal.signal, signal.SIGINT, signal.SIG_DFL)
        with subprocess.Popen(
            words,
            cwd=TOP,
            stdout=subprocess.PIPE,
            text=True,
            start_new_session=True,
            preexec_fn=heeds,
        ) as process:
            path = self.folder / "stopped" / tables.RUNS
            until = time.monotonic() + 120
            while time.monotonic() < until and not (
                path.exists() and path.read_bytes().count(b"\n") > 5
            ):
                time.sleep(0.02)
            process.send_signal(signal.SIGINT)
            output, _ = process.communicate(timeout=120)
        self.assertEqual(process.returncode, 130)
        self.assertRegex(
            output,
            r"interrupted; \d+ of 4000 runs are done: the same command goes on there",
        )

    def test_a_changed_file_needs_another_folder(self) -> None:
        self.swept("out", *MODEL)
        self.file.write_text(TEXT.replace("seeds = 6", "seeds = 7"))
        self.assertIn(
            "has rows that were made otherwise: sweep differ;",
            self.refusal("out", *MODEL),
        )

    def refusal(self, out: str, *extra: str) -> str:
        """Returns the message of a rejected sweep."""
        status, _, errors = run_call(main, self.words(out, *extra))
        self.assertEqual(status, 2)
        return errors

    def small(self, agent: pathlib.Path) -> None:
        self.file.write_text(
            TEXT.partition("[[team]]")[0]
            + f'[[team]]\nname = "own"\nagent = "{agent} {{nodes}}"\n'
        )

    def test_it_does_not_go_on_once_a_file_that_an_agent_imports_has_changed(
        self,
    ) -> None:
        agents = TOP / "examples" / "agents"
        helper = self.folder / "helper.py"
        (self.folder / "own.py").write_text(
            "def search(agent, key, nodes):\n    import helper\n"
            "    helper.search(agent, key, nodes)\n"
        )
        helper.write_text((agents / "ring.py").read_text())
        self.small(self.folder / "own.py")
        self.assertEqual(run_call(main, self.words("out", *MODEL)).status, 0)
        self.assertEqual(
            run_call(
                main,
                [
                    "run",
                    "--agent",
                    f"{self.folder}/own.py {{nodes}}",
                    "--keep",
                    str(self.folder / "find"),
                    *MODEL,
                ],
            ).status,
            0,
        )
        helper.write_text(
            (TOP / "examples" / "agents" / "faulty" / "reads_once.py").read_text()
        )
        self.assertIn(f"made otherwise: {helper}", self.refusal("out", *MODEL))
        errors = run_call(main, ["replay", str(self.folder / "find"), *MODEL]).errors
        self.assertIn(
            f"arena-lab: {helper} is another file than when the schedule was made",
            errors,
        )

    def test_another_program_does_not_go_on(self) -> None:
        self.small(TOP / "examples" / "agents" / "ring.py")
        self.assertEqual(run_call(main, self.words("out", *MODEL)).status, 0)
        self.assertIn(
            "made otherwise: program differ;",
            self.refusal("out", "--program", program()),
        )

    def test_rows_are_verified_by_either_engine(self) -> None:
        self.small(TOP / "examples" / "agents" / "ring.py")
        self.assertEqual(run_call(main, self.words("out", *MODEL)).status, 0)
        self.assertEqual(
            self.verify(*MODEL), (0, "24 of 24 rows were played again: 0 differ", "")
        )
        status, output, errors = self.verify("3", "--program", program())
        self.assertEqual(
            (status, output), (0, "3 of 24 rows were played again: 0 differ")
        )
        self.assertIn(
            "arena-lab: program is other than when the rows were made", errors
        )
        # a forger writes the check of what he has written
        path = self.folder / "out" / tables.RUNS
        rows = tables.cells_in(path)
        rows[5][tables.COLUMNS.index("moves")] = "1"
        rows[5][tables.CHECK] = tables.check_of(rows[5])
        path.write_text("".join(map(tables.line_of, [tables.COLUMNS, *rows])))
        status, output, errors = self.verify(*MODEL)
        self.assertEqual(
            (status, output), (1, "24 of 24 rows were played again: 1 differ")
        )
        self.assertIn("run 5 comes out otherwise: moves\n", errors)
        self.assertIn("summary.csv is not what is made of the rows", errors)

    def test_what_is_made_of_the_rows_is_verified(self) -> None:
        self.small(TOP / "examples" / "agents" / "ring.py")
        self.file.write_text(self.file.read_text().replace("seeds = 6", "seeds = 2"))
        self.assertEqual(run_call(main, self.words("out", *MODEL)).status, 0)
        for name, text in ((sweeping.SUMMARY, ",2,2,"), (sweeping.REPORT, "solved")):
            with self.subTest(name):
                path = self.folder / "out" / name
                before = path.read_text()
                self.assertIn(text, before)
                path.write_text(before.replace(text, text[::-1] + "1", 1))
                status, output, errors = self.verify(*MODEL)
                self.assertEqual(
                    (status, output), (1, "8 of 8 rows were played again: 0 differ")
                )
                self.assertEqual(errors, f"{name} is not what is made of the rows\n")
                path.write_text(before)
        self.assertEqual(self.verify(*MODEL)[0], 0)

    def test_rows_of_another_grid_are_refused(self) -> None:
        """Valid rows that do not belong to the sweep (swapped or extra) are
        rejected."""
        self.small(TOP / "examples" / "agents" / "ring.py")
        self.assertEqual(run_call(main, self.words("out", *MODEL)).status, 0)
        path = self.folder / "out" / tables.RUNS
        rows = tables.cells_in(path)

        def write_grid(changes: List[List[str]]) -> str:
            for number, row in enumerate(changes):
                row[0] = str(number)
                row[tables.CHECK] = tables.check_of(row)
            path.write_text("".join(map(tables.line_of, [tables.COLUMNS, *changes])))
            return self.refusal("out", *MODEL)

        copies = [list(row) for row in rows]
        self.assertIn(
            "line 7 is of another run than the sweep has there",
            write_grid([*copies[:5], copies[6], copies[5], *copies[7:]]),
        )
        self.assertIn(
            "it has 25 rows, and the sweep has 24 runs",
            write_grid([list(row) for row in [*rows, rows[-1]]]),
        )

    def test_what_an_agent_reads_without_importing_it_by_its_name_is_noted(
        self,
    ) -> None:
        helper = self.folder / "helper.py"
        table = self.folder / "table.json"
        (self.folder / "own.py").write_text(
            "import importlib, json, pathlib\nHERE = pathlib.Path(__file__).parent\ndef search(agent, key, nodes):\n"
            "    helper = importlib.import_module('hel' + 'per')\n"
            "    assert json.loads((HERE / 'table.json').read_text()) == [1]\n    helper.search(agent, key, nodes)\n"
        )
        helper.write_text((TOP / "examples" / "agents" / "ring.py").read_text())
        table.write_text("[1]")
        self.small(self.folder / "own.py")
        for workers in ("1", "2"):
            self.assertEqual(
                run_call(
                    main, self.words(f"out{workers}", "--workers", workers, *MODEL)
                ).status,
                0,
            )
            for file, text in (
                (table, "[1 ]"),
                (helper, helper.read_text() + "# other\n"),
            ):
                with self.subTest(file, workers=workers):
                    before = file.read_text()
                    file.write_text(text)
                    self.assertIn(
                        f"made otherwise: {file}", self.refusal(f"out{workers}", *MODEL)
                    )
                    file.write_text(before)
            self.assertEqual(
                run_call(main, self.words(f"out{workers}", *MODEL)).status, 0
            )

    def verify(self, *extra: str) -> Tuple[int, str, str]:
        """The exit status of --verify, the end of its line, and what it says on
        standard error."""
        status, output, errors = run_call(main, self.words("out", "--verify", *extra))
        return (
            status,
            output.strip()
            .rpartition("proved: ")[2]
            .rpartition("proof: ")[2]
            .rpartition("program: ")[2],
            errors,
        )

    def test_a_script_that_starts_the_program_is_not_called_proved(self) -> None:
        script = self.folder / "arena"
        script.write_text(f'#!/bin/sh\nexec {program()} "$@"\n')
        script.chmod(0o755)
        self.small(TOP / "examples" / "agents" / "ring.py")
        self.file.write_text(self.file.read_text().replace("seeds = 6", "seeds = 1"))
        status, output, _ = run_call(main, self.words("out", "--program", str(script)))
        self.assertEqual(status, 0)
        self.assertIn(
            "4 runs on a program of which no record says that it is proved: solved 4",
            output,
        )
