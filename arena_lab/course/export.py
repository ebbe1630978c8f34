"""What a graded course is written as for gradebooks: Gradescope's results, Moodle's
import of grades, JUnit's XML and a table.

    gradescope    gradescope-TEAM.json for each team: the `results.json` of an autograder
    moodle        moodle.csv: a row for each student, as Moodle's import of grades reads it; `students.csv`, a table
                  with a column `team` and a column `idnumber` or `email`, says which students a team has
    junit         junit.xml: a test for each match, as GitHub and GitLab show it
    csv           points.csv: a row for each team, with its points on each network
"""
import csv
import json
import pathlib
import re
import xml.etree.ElementTree as ElementTree
from typing import Dict, List, Mapping, NamedTuple, Optional, Sequence, Tuple

from arena_lab.course import league
from arena_lab.course.points import Mark, Points, number, text
from arena_lab.support.fields import FileFormatError
from arena_lab.sweep.report import is_solved
from arena_lab.sweep.tables import line_of

GRADESCOPE = "gradescope"
MOODLE = "moodle"
JUNIT = "junit"
CSV = "csv"
KINDS = (GRADESCOPE, MOODLE, JUNIT, CSV)
STUDENTS = "students.csv"
# of each column of students how Moodle calls it
IDENTITIES = {"idnumber": "ID number", "email": "Email address"}
# characters that XML forbids
NO_XML = re.compile("[^\t\n\r\u0020-\ud7ff\ue000-\ufffd\U00010000-\U0010ffff]")


class Marks(NamedTuple):
    """The data to export: title, grading scheme, each team's marks in league order, and
    the messages about rejected lines of each match."""

    title: str
    points: Points
    teams: Mapping[str, List[Mark]]
    refusals: league.Refusals

    def mark_text(self, mark: Mark) -> str:
        """Returns the feedback on a match for a student."""
        row = mark.row
        outcome = league.outcome_text(row["outcome"], row["moves"], row["lost"])
        return "\n".join([outcome, *mark.why, *self.refusals.get(mark.number, ())])


class Student(NamedTuple):
    """A student, identified by the value of a gradebook column (`column`, `name`)."""

    column: str
    name: str
    team: str


def in_all(marks: Sequence[Mark]) -> Tuple[int, int]:
    """Sums a team's points, and the maximum that it could have reached."""
    return sum(mark.score for mark in marks), sum(mark.most for mark in marks)


def summary(marks: Sequence[Mark]) -> str:
    """Summarises a team's marks in one line."""
    (score, max_score) = in_all(marks)
    solved_count = sum(is_solved(mark.row) for mark in marks)
    return f"{solved_count} of {len(marks)} matches solved, {text(score)} of {text(max_score)} points"


def students_in(path: pathlib.Path, teams: Sequence[str]) -> List[Student]:
    """Reads the students of a file. Raises an error if a student's team is not in the
    course."""
    try:
        with path.open(encoding="utf-8-sig", newline="") as file:
            rows = list(csv.DictReader(file))
            heads = [name for name in IDENTITIES if rows and name in rows[0]]
    except FileNotFoundError:
        raise FileFormatError(
            f"{path}: there is no such file; write a table with the columns team and idnumber or email, or "
            "name one by --students"
        ) from None
    except (UnicodeDecodeError, csv.Error) as fault:
        raise FileFormatError(f"{path}: it is no CSV in UTF-8: {fault}") from None
    if not heads or "team" not in rows[0]:
        raise FileFormatError(
            f"{path}: its first line must have the columns team and idnumber or email, and a student "
            "follow"
        )
    students = [
        Student(heads[0], (row[heads[0]] or "").strip(), (row["team"] or "").strip())
        for row in rows
    ]
    names = [student.name for student in students]
    for line, student in enumerate(students, 2):
        if student.team not in teams:
            raise FileFormatError(
                f"{path}: line {line} has team {student.team}, which the course does not have"
            )
        if not student.name or names.count(student.name) > 1:
            raise FileFormatError(f"{path}: line {line} has no {heads[0]} of its own")
    return students


def gradescope(marks: Marks, team: str) -> str:
    """The `results.json` of an autograder."""
    marks_of_team = marks.teams[team]
    solved_marks = [mark for mark in marks_of_team if is_solved(mark.row)]
    tests = [
        {
            "name": mark.name(),
            "number": str(mark.number),
            "score": number(mark.score),
            "max_score": number(mark.most),
            "status": "passed" if is_solved(mark.row) else "failed",
            "output": marks.mark_text(mark),
            "output_format": "text",
            "visibility": marks.points.visibility,
        }
        for mark in marks_of_team
    ]
    board = [
        {"name": "points", "value": number(in_all(marks_of_team)[0])},
        {"name": "solved", "value": len(solved_marks)},
        {
            "name": "moves",
            "value": sum(int(mark.row["moves"]) for mark in solved_marks),
            "order": "asc",
        },
        {
            "name": "lost",
            "value": sum(int(mark.row["lost"]) for mark in solved_marks),
            "order": "asc",
        },
    ]
    return (
        json.dumps(
            {
                "score": number(in_all(marks_of_team)[0]),
                "output": summary(marks_of_team),
                "output_format": "text",
                "visibility": marks.points.visibility,
                "stdout_visibility": "hidden",
                "tests": tests,
                "leaderboard": board,
            },
            indent=1,
        )
        + "\n"
    )


def moodle(marks: Marks, students: Sequence[Student]) -> str:
    """The table that Moodle's import of grades reads."""
    item = " ".join(marks.title.split())
    head = [IDENTITIES[students[0].column], f"{item} (Real)", f"{item} (Feedback)"]
    rows = [
        [
            student.name,
            text(in_all(marks.teams[student.team])[0]),
            f"team {student.team}: {summary(marks.teams[student.team])}",
        ]
        for student in students
    ]
    return "".join(map(line_of, [head, *rows]))


def junit(marks: Marks) -> str:
    """A document of JUnit: a suite for each team, and a test for each match."""
    root = ElementTree.Element("testsuites", name=as_xml(marks.title))
    for team, team_marks in marks.teams.items():
        unplayed_marks = [
            mark for mark in team_marks if mark.row["outcome"] == league.UNPLAYED
        ]
        failed_marks = [
            mark
            for mark in team_marks
            if not is_solved(mark.row) and mark not in unplayed_marks
        ]
        suite = ElementTree.SubElement(
            root,
            "testsuite",
            name=team,
            tests=str(len(team_marks)),
            failures=str(len(failed_marks)),
            errors=str(len(unplayed_marks)),
            skipped="0",
        )
        for mark in team_marks:
            case = ElementTree.SubElement(
                suite,
                "testcase",
                classname=f"{team}.{mark.row['network']}",
                name=as_xml(mark.name()),
            )
            if not is_solved(mark.row):
                kind = league.kind_of(mark.row)
                text = as_xml(marks.mark_text(mark))
                node = ElementTree.SubElement(
                    case,
                    "error" if mark in unplayed_marks else "failure",
                    message=text.split("\n")[0],
                    type=kind,
                )
                node.text = text
            elif marks.mark_text(mark):
                ElementTree.SubElement(case, "system-out").text = as_xml(
                    marks.mark_text(mark)
                )
    ElementTree.indent(root, " ")
    return (
        '<?xml version="1.0" encoding="UTF-8"?>\n'
        + ElementTree.tostring(root, encoding="unicode")
        + "\n"
    )


def as_xml(text: str) -> str:
    """Replaces characters that XML forbids."""
    return NO_XML.sub("\ufffd", text)


def table(marks: Marks) -> str:
    """A row for each team: its points, the most, and those on each network."""
    names = list(marks.points.networks)
    rows: List[Sequence[str]] = [["team", "points", "most", *names]]
    for team, team_marks in marks.teams.items():
        score, max_score = in_all(team_marks)
        each = [
            text(sum(mark.score for mark in team_marks if mark.row["network"] == name))
            for name in names
        ]
        rows.append([team, text(score), text(max_score), *each])
    return "".join(map(line_of, rows))


class Export(NamedTuple):
    """The export formats requested, and the students if a gradebook needs them."""

    kinds: Sequence[str] = ()
    students: Sequence[Student] = ()

    def files(self, marks: Marks) -> Dict[str, str]:
        """The texts of the files, by their names."""
        texts: Dict[str, str] = {}
        if GRADESCOPE in self.kinds:
            texts.update(
                (f"gradescope-{team}.json", gradescope(marks, team))
                for team in marks.teams
            )
        if MOODLE in self.kinds:
            texts["moodle.csv"] = moodle(marks, self.students)
        if JUNIT in self.kinds:
            texts["junit.xml"] = junit(marks)
        if CSV in self.kinds:
            texts["points.csv"] = table(marks)
        return texts


def export_of(
    kinds: Optional[Sequence[str]],
    students: Optional[pathlib.Path],
    folder: pathlib.Path,
    teams: Sequence[str],
) -> Export:
    """Returns the export that the arguments ask for."""
    fromkeys = tuple(dict.fromkeys(kinds or ()))
    if MOODLE not in fromkeys:
        return Export(fromkeys)
    return Export(fromkeys, students_in(students or folder / STUDENTS, teams))
