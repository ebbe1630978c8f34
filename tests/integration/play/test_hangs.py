"""Programs that hang cost a course little time, and are told what they may have
forgotten."""
from typing import Dict, List

from arena_lab.__main__ import main
from arena_lab.sweep import tables
from tests.support.matches import AGENTS, InFolder
from tests.support.output import run_call

# enters and hangs on the ring of 4 nodes, and searches on others
HANGS = """
import socket, sys, time
if sys.argv[4] == "4":
    server = socket.create_connection((sys.argv[1], int(sys.argv[2])))
    server.sendall(b'{"do":"enter","key":"%s"}\\n' % sys.argv[3].encode())
    time.sleep(1000)
import runpy
runpy.run_path("ring.py", run_name="__main__")
"""


class Hangs(InFolder):
    def faults(self, *extra: str) -> Dict[str, List[str]]:
        """The first faults of the matches on each network."""
        course = self.folder / "course.toml"
        course.write_text(
            'title = "T"\nnetworks = ["ring:4", "ring:5"]\nholes = [2]\nseeds = 4\nlimit = 4\n[[team]]\n'
            f'name = "a"\nfiles = ["{AGENTS}/client.py", "{AGENTS}/ring.py", "hangs.py"]\n'
            'command = "python3 hangs.py {host} {port} {key} {nodes}"\n'
        )
        (self.folder / "hangs.py").write_text(HANGS)
        run_call(
            main,
            [
                "grade",
                str(course),
                "--out",
                str(self.folder / "out"),
                "--engine",
                "model",
                "--no-repeat",
                *extra,
            ],
        )
        results: Dict[str, List[str]] = {}
        for row in tables.rows_in(self.folder / "out" / tables.RUNS):
            results.setdefault(row["network"], []).append(row["fault"])
        return results

    def test_after_the_second_hang_the_others_are_not_waited_for_as_long(self) -> None:
        result = self.faults("--workers", "1")
        waited_value = (
            "agent 0: has sent no line for {} s; does it flush after each line?"
        )
        self.assertEqual(
            result["ring:4"], [waited_value.format(seconds) for seconds in (4, 4, 1, 1)]
        )
        self.assertEqual(result["ring:5"], [""] * 4)
        page = (self.folder / "out" / "team-a.html").read_text()
        self.assertEqual(page.count('<section class="match">'), 1)
        self.assertIn("and 3 other matches alike", page)
        # a run that was interrupted remembers
        rows = self.folder / "out" / tables.RUNS
        lines = rows.read_text().splitlines(keepends=True)
        last = max(number for number, line in enumerate(lines) if "ring:4" in line)
        rows.write_text("".join(lines[:last]))
        self.assertEqual(self.faults("--workers", "1"), result)
