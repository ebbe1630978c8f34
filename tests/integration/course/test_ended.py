"""A grading that a signal ends, SIGTERM once or more often or SIGKILL, leaves no
process behind, whether or not walls keep programs in."""
import os
import signal
import subprocess
import sys
import tempfile
import time
from typing import List

from arena_lab.rules.engines import TOP
from arena_lab.sandbox.processes import below, is_alive, command_words
from tests.support.matches import program
from tests.support.output import InTemporary, write

COURSE = """title = "it hangs"
networks = ["ring:5"]
holes = 1

[[team]]
name = "amber"
agents = 2
files = ["files"]
command = "python3 agent.py {host} {port} {key} {nodes}"
"""
AGENT = ["python3", "agent.py"]
# the lab, as where programs have no walls
WITHOUT_SANDBOX = """
from arena_lab.sandbox import sandboxes
sandboxes.strongest = lambda: sandboxes.Isolation.USER if sandboxes.os.geteuid() == 0 else sandboxes.Isolation.NONE
from arena_lab.__main__ import main
raise SystemExit(main())
"""
# seconds within which agents have begun, and the grading ends
BEGIN_SECONDS = 120
END_SECONDS = 60


class Ended(InTemporary):
    def setUp(self) -> None:
        super().setUp()
        write(
            self.folder / "files" / "agent.py", "import time\ntime.sleep(1_000_000)\n"
        )
        (self.folder / "course.toml").write_text(COURSE)

    def test_a_grading_that_is_sent_signals_leaves_nothing(self) -> None:
        for signals in ([signal.SIGTERM], [signal.SIGTERM] * 5, [signal.SIGKILL]):
            for title, lab in (
                ("as it is", ["-m", "arena_lab"]),
                ("without walls", ["-c", WITHOUT_SANDBOX]),
            ):
                with self.subTest(title, signals=signals):
                    self.grade_until_signal(lab, signals)

    def grade_until_signal(self, lab: List[str], signals: List[signal.Signals]) -> None:
        """Grades, and sends these signals once the agents of a match have begun."""
        out = self.enterContext(tempfile.TemporaryDirectory(dir=self.folder))
        words = [
            *lab,
            "grade",
            str(self.folder / "course.toml"),
            "--out",
            f"{out}/out",
            "--program",
            program(),
        ]
        child = subprocess.Popen(
            [sys.executable, *words],
            cwd=TOP,
            stdout=subprocess.DEVNULL,
            stderr=subprocess.DEVNULL,
        )
        self.addCleanup(child.kill)
        late = time.monotonic() + BEGIN_SECONDS
        while len(agents_of(child.pid)) < 2 and time.monotonic() < late:
            time.sleep(0.1)
        start = below(child.pid)
        self.assertEqual(len(agents_of(child.pid)), 2, "not all agents have begun")
        for number in signals:
            child.send_signal(number)
            time.sleep(0.002)
        self.assertEqual(
            child.wait(END_SECONDS),
            -number if number == signal.SIGKILL else 128 + number,
        )
        late = time.monotonic() + END_SECONDS
        while any(map(is_alive, start)) and time.monotonic() < late:
            time.sleep(0.1)
        remaining = [it for it in start if is_alive(it)]
        for it in remaining:
            os.kill(it, signal.SIGKILL)
        self.assertEqual(remaining, [])


def agents_of(grading: int) -> List[int]:
    """The agents that a grading has started."""
    return [
        process for process in below(grading) if command_words(process)[:2] == AGENT
    ]
