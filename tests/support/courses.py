"""What the tests of graded courses share: the tables of a course's file, and the rows
of its results by team."""
import pathlib
from typing import Any, Dict, List, Sequence

from arena_lab.sweep import tables
from tests.support.matches import AGENTS

HEAD = 'title = "A trial"\nnetworks = ["ring:4"]\nholes = [2]\nlimit = 60\n'


def team(name: str, files: Sequence[Any], command: str, agents: int = 2) -> str:
    """The table of a team in a course's file."""
    return f'[[team]]\nname = "{name}"\nagents = {agents}\nfiles = {list(map(str, files))}\ncommand = "{command}"\n'


HONEST = team(
    "right",
    [AGENTS / "client.py", AGENTS / "ring.py"],
    "python3 ring.py {host} {port} {key} {nodes}",
)


def grade_words(file: pathlib.Path, out: pathlib.Path, workers: int) -> List[str]:
    """The words of `grade` by the Python model."""
    words = ["grade", str(file), "--out", str(out), "--engine", "model"]
    return [*words, "--workers", str(workers)]


def rows_of_teams(out: pathlib.Path) -> Dict[str, Any]:
    """The rows of each team in a folder of results."""
    results: Dict[str, Any] = {}
    for row in tables.rows_in(out / tables.RUNS):
        results.setdefault(row["team"], []).append(row)
    return results
