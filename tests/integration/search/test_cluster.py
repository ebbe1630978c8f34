"""A sweep over the workers of a Dask scheduler gives the rows of a sweep over
processes, byte for byte."""
import importlib.util
import subprocess
import sys
import unittest
from typing import List
from unittest import mock

from arena_lab.__main__ import main
from arena_lab.play import parallel
from arena_lab.play.parallel import digest_of, other_files
from arena_lab.sweep import tables
from tests.support.matches import InFolder, program
from tests.support.output import InTemporary, run_call

TEXT = """title = "A trial"
networks = ["ring:5", "ring:8"]
schedulers = ["fair", "slow-agents"]
seeds = 20
[[team]]
name = "ring"
agent = "examples/agents/ring.py {nodes}"
"""
HAS_DASK = importlib.util.find_spec("distributed") is not None
SCHEDULER = "distributed.cli.dask_scheduler"
WORKER = "distributed.cli.dask_worker"


@unittest.skipUnless(HAS_DASK, "Debian's python3-distributed is not installed")
class OnCluster(InFolder):
    """Tests that start a cluster."""

    def setUp(self) -> None:
        super().setUp()
        self.file = self.folder / "sweep.toml"
        self.file.write_text(TEXT)

    def start_process(self, module: str, *words: str) -> "subprocess.Popen[str]":
        """A part of a cluster, which is ended with the test."""
        child = subprocess.Popen(
            [sys.executable, "-m", module, *words],
            cwd=self.folder,
            stderr=subprocess.PIPE,
            stdout=subprocess.DEVNULL,
            text=True,
        )
        self.addCleanup(child.stderr.close)
        self.addCleanup(child.wait)
        self.addCleanup(child.kill)
        return child

    def scheduler(self) -> str:
        """The address of a scheduler that has begun."""
        child = self.start_process(
            SCHEDULER, "--host", "127.0.0.1", "--port", "0", "--no-dashboard"
        )
        for line in child.stderr:
            if "Scheduler at:" in line:
                return line.split()[-1]
        raise AssertionError("the scheduler has ended")

    def worker(self, address: str) -> None:
        """Begins a worker, and waits until it is known."""
        child = self.start_process(
            WORKER,
            address,
            "--host",
            "127.0.0.1",
            "--no-nanny",
            "--nthreads",
            "1",
            "--no-dashboard",
        )
        for line in child.stderr:
            if "Registered to:" in line:
                return
        raise AssertionError("the worker has ended")

    def swept(self, out: str, *extra: str) -> bytes:
        status, output, errors = run_call(
            main, ["sweep", str(self.file), "--out", str(self.folder / out), *extra]
        )
        self.assertEqual(status, 0, output + errors)
        return (self.folder / out / tables.RUNS).read_bytes()


class Clusters(OnCluster):
    def test_two_workers_give_the_rows_of_this_machine(self) -> None:
        address = self.scheduler()
        self.check_fault(address, "has no workers: start one for each processor by")
        for _ in range(2):
            self.worker(address)
        rows = self.swept("model", "--engine", "model")
        self.assertEqual(rows.count(b"\n"), 81)
        self.assertEqual(
            self.swept("cluster", "--engine", "model", "--cluster", address), rows
        )
        self.file.write_text(TEXT.replace("seeds = 20", "seeds = 1"))
        few = self.swept("few", "--engine", "model")
        self.assertEqual(
            self.swept("program", "--program", program(), "--cluster", address), few
        )

    def check_fault(self, address: str, expectation: str) -> None:
        words = [
            "sweep",
            str(self.file),
            "--out",
            str(self.folder / "none"),
            "--engine",
            "model",
        ]
        status, _, errors = run_call(main, [*words, "--cluster", address])
        self.assertEqual(status, 2)
        self.assertIn(expectation, errors)

    def test_an_address_at_which_nobody_listens(self) -> None:
        with mock.patch.object(parallel, "SECONDS_TO_ANSWER", 1):
            self.check_fault(
                "tcp://127.0.0.1:9", "no Dask scheduler answers at tcp://127.0.0.1:9"
            )


class OtherMachines(InTemporary):
    def test_a_machine_with_another_file_is_found_out(self) -> None:
        path = self.folder / "agent.py"
        path.write_text("one")
        files: List[dict] = [{str(path): digest_of(path)}]
        self.assertEqual(other_files(files[0]), [])
        path.write_text("other")
        self.assertEqual(other_files(files[0]), [str(path)])
        path.unlink()
        self.assertEqual(other_files(files[0]), [str(path)])
