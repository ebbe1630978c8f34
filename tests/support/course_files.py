"""A course of one team on two rings, and rows of its matches."""
from typing import Any, Dict

from arena_lab.course.course_files import CourseFile, course_of
from arena_lab.sweep import tables
from tests.support.output import InTemporary

HEAD = 'title = "T"\nnetworks = ["ring:4", "ring:5"]\n'
TEAM = '[[team]]\nname = "a"\nfiles = ["agent.py"]\ncommand = "python3 agent.py {port} {key}"\n'

SECRET = "0123456789abcdef"


def row(
    run: int, team: str, moves: int, outcome: str = "solved", *faults: str
) -> Dict[str, Any]:
    network = "ring:4" if run % 2 == 0 else "ring:5"
    fault = faults[0] if faults else ""
    values = [
        run,
        network,
        4,
        4,
        0,
        1,
        team,
        2,
        "fair",
        run,
        outcome,
        moves,
        1,
        9,
        9,
        "00",
        "",
        fault,
    ]
    return {**dict(zip(tables.COLUMNS, map(str, values))), "faults": list(faults)}


class Folder(InTemporary):
    def setUp(self) -> None:
        super().setUp()
        (self.folder / "agent.py").write_text("pass")

    def course(self, middle: str = "", team: str = TEAM) -> CourseFile:
        return course_of(HEAD + middle + team, self.folder, SECRET)
