"""Points of matches, and what is written of them for gradebooks, by the rules of each
format."""
import csv
import io
import json
import pathlib
import tempfile
import unittest
import xml.etree.ElementTree as ElementTree
from typing import Any, Dict, List

from arena_lab.course import export, league
from arena_lab.course.course_files import course_of
from arena_lab.course.export import Export, Marks, Student, export_of, students_in
from arena_lab.course.points import Points, marks, text
from arena_lab.support.fields import FileFormatError
from tests.support.course_files import HEAD, SECRET, TEAM, Folder, row

HOSTILE = "=cmd|' /C calc'!A0\x1b[2J\x00<b>\"&]]>\ufffe\ud800é"
# the specification of Gradescope's results.json (gradescope-autograders.readthedocs.io,
# "Output format")
FORMATS = {"text", "html", "simple_format", "md", "ansi"}
SEEN = {"hidden", "after_due_date", "after_published", "visible"}
RESULTS = {
    "score",
    "execution_time",
    "output",
    "output_format",
    "test_output_format",
    "test_name_format",
    "visibility",
    "stdout_visibility",
    "extra_data",
    "tests",
    "leaderboard",
}
TEST = {
    "score",
    "max_score",
    "status",
    "name",
    "name_format",
    "number",
    "output",
    "output_format",
    "tags",
    "visibility",
    "extra_data",
}
# the schema of JUnit's XML that Jenkins publishes: of each element its attributes and
# its children
JUNIT = {
    "testsuites": (
        {"name", "time", "tests", "failures", "disabled", "errors"},
        {"testsuite"},
    ),
    "testsuite": (
        {
            "name",
            "tests",
            "failures",
            "errors",
            "time",
            "disabled",
            "skipped",
            "timestamp",
            "hostname",
            "id",
            "package",
            "file",
            "log",
            "url",
            "version",
            "group",
        },
        {"testsuite", "properties", "testcase", "system-out", "system-err"},
    ),
    "testcase": (
        {
            "name",
            "assertions",
            "time",
            "classname",
            "status",
            "class",
            "file",
            "line",
            "log",
            "group",
            "url",
        },
        {
            "skipped",
            "error",
            "failure",
            "rerunFailure",
            "system-out",
            "system-err",
            "properties",
        },
    ),
    "failure": ({"type", "message"}, set()),
    "error": ({"type", "message"}, set()),
    "system-out": (set(), set()),
}


def rows() -> List[Dict[str, Any]]:
    """Matches of two teams: solved, wrong, crashed with hostile last words, and not
    played."""
    return [
        row(0, "a", 9),
        row(1, "a", 4, "wrong"),
        row(2, "b", 99),
        row(3, "b", 0, "silent", f"agent 0: has ended with status 1: {HOSTILE}"),
        row(4, "b", 0, league.UNPLAYED, "not played: the time is up"),
    ]


class Given(Folder):
    def points(self, table: str = "") -> Points:
        result = course_of(
            HEAD + TEAM.replace("[[team]]", f"{table}\n[[team]]"), self.folder, SECRET
        ).points
        assert result is not None
        return result

    def marks(self, table: str = "") -> Marks:
        points = self.points(table)
        teams = {}
        for team in ("b", "a"):
            teams[team] = marks(points, [row for row in rows() if row["team"] == team])
        return Marks(
            f"Rings {HOSTILE[:5]}",
            points,
            teams,
            {3: [f"agent 0: 1 line was no command: `{HOSTILE}`"]},
        )


class GivenPoints(Given):
    def scores(self, table: str, *args: Dict[str, Any]) -> List[int]:
        return [mark.score for mark in marks(self.points(table), list(args))]

    def test_the_points_of_a_network_are_divided_to_the_last_hundredth(self) -> None:
        for count in range(1, 30):
            solved_count = [row(2 * number, "a", 9) for number in range(count)]
            self.assertEqual(
                sum(self.scores("[points]\nnetwork = 10", *solved_count)), 1000
            )
            self.assertEqual(sum(self.scores("", *solved_count)), 1000)

    def test_a_network_has_points_of_its_own(self) -> None:
        table = '[points]\nnetwork = {"ring:4" = 2.5}'
        self.assertEqual(
            self.scores(table, row(0, "a", 9), row(1, "a", 9)), [250, 1000]
        )

    def test_moves_against_a_bound(self) -> None:
        table = "[points]\nmoves = 0.5\nbound = 10"
        for moves, score in ((0, 1000), (10, 1000), (15, 750), (20, 500), (2000, 500)):
            self.assertEqual(self.scores(table, row(0, "a", moves)), [score], moves)
        # 2 n log2 n is 16 on a ring of 4
        by_name = '[points]\nmoves = 1\nbound = "2 n log2 n"'
        self.assertEqual(
            [self.scores(by_name, row(0, "a", moves)) for moves in (16, 24, 32)],
            [[1000], [500], [0]],
        )

    def test_losses_take_points_away_and_none_has_less_than_nothing(self) -> None:
        for lost, score in (("0", 1000), ("1", 1000), ("2", 600), ("3", 200), ("9", 0)):
            self.assertEqual(
                self.scores("[points]\nlost = 4", {**row(0, "a", 9), "lost": lost}),
                [score],
                lost,
            )
        # two black holes cost two agents
        two = {**row(0, "a", 9), "lost": "2", "hole": "1 2"}
        self.assertEqual(self.scores("[points]\nlost = 4", two), [1000])

    def test_what_failed_has_no_points(self) -> None:
        conditions = [
            row(0, "a", 4, "wrong"),
            row(2, "a", 4, "solved", "agent 1: has connected twice"),
        ]
        self.assertEqual(self.scores("", *conditions), [0, 0])

    def test_what_is_refused(self) -> None:
        for table, message in (
            ("network = -1", "network must be a number"),
            ("network = {'ring:9' = 1}", "points for ring:9"),
            ("network = true", "network must be"),
            ("moves = 2", "moves must be a part from 0 to 1"),
            ("moves = 0.5", "no bound of which they are"),
            ("bound = 'n'", "bound must be a number"),
            ("bound = 0", "bound must be a number"),
            ("lost = -1", "lost must be a number from 0"),
            ("visibility = 'x'", "visibility must be one of visible, hidden,"),
            ("solved = 1", "[points] has no key solved; its keys are bound,"),
        ):
            with self.subTest(table), self.assertRaises(FileFormatError) as fault:
                self.points(f"[points]\n{table}")
            self.assertIn(message, str(fault.exception))
        with self.assertRaisesRegex(FileFormatError, "points must be a table"):
            course_of(f"points = 1\n{HEAD}{TEAM}", self.folder, SECRET)

    def test_points_as_a_text(self) -> None:
        self.assertEqual(
            [text(it) for it in (0, 5, 50, 100, 1000, 1234567, 100000000)],
            ["0", "0.05", "0.5", "1", "10", "12345.67", "1000000"],
        )


class Written(Given):
    def test_gradescope(self) -> None:
        marks = self.marks(
            '[points]\nnetwork = {"ring:5" = 5.01}\nvisibility = "after_due_date"'
        )
        for team in ("a", "b"):
            # characters outside of Unicode are replaced in the file
            report = json.loads(export.gradescope(marks, team).encode("utf-8"))
            self.assertLessEqual(set(report), RESULTS)
            self.assertTrue(
                report["output_format"] in FORMATS
                and report["stdout_visibility"] in SEEN
            )
            for test in report["tests"]:
                self.assertLessEqual(set(test), TEST)
                self.assertTrue(
                    test["output_format"] in FORMATS
                    and test["visibility"] == "after_due_date"
                )
                self.assertTrue(
                    0 <= test["score"] <= test["max_score"]
                    and test["status"] in ("passed", "failed")
                )
                self.assertTrue(
                    all(
                        isinstance(test[name], str)
                        for name in ("name", "number", "output")
                    )
                )
            self.assertEqual(
                report["score"],
                round(sum(test["score"] for test in report["tests"]), 2),
            )
            for entry in report["leaderboard"]:
                self.assertLessEqual(set(entry), {"name", "value", "order"})
                self.assertIn(entry.get("order", "desc"), ("asc", "desc"))
            self.assertEqual(
                [it["name"] for it in report["leaderboard"]],
                ["points", "solved", "moves", "lost"],
            )
        self.assertEqual(report["leaderboard"][0]["value"], 3.34 if team == "a" else 5)

    def test_junit(self) -> None:
        writing = export.junit(self.marks())
        root = ElementTree.fromstring(writing.encode("utf-8"))
        for node in root.iter():
            attributes, children = JUNIT[node.tag]
            self.assertLessEqual(set(node.attrib), attributes)
            self.assertLessEqual({child.tag for child in node}, children)
        for suite in root:
            for name, tag in (
                ("tests", "testcase"),
                ("failures", "testcase/failure"),
                ("errors", "testcase/error"),
            ):
                self.assertEqual(int(suite.attrib[name]), len(suite.findall(tag)))
            self.assertTrue(
                all({"name", "classname"} <= set(case.attrib) for case in suite)
            )
        self.assertEqual([suite.attrib["name"] for suite in root], ["b", "a"])
        self.assertIn(
            '<b>"&]]>',
            root.findall(".//failure")[0].attrib["message"] + "".join(root.itertext()),
        )

    def test_moodle(self) -> None:
        students = [
            Student("email", "x@example.org", "a"),
            Student("email", "y@example.org", "b"),
        ]
        writing = export.moodle(self.marks(), students).encode("utf-8")
        table = list(csv.reader(io.StringIO(writing.decode())))
        self.assertEqual(
            table[0], ["Email address", "Rings =cmd| (Real)", "Rings =cmd| (Feedback)"]
        )
        self.assertEqual(
            [line[:2] for line in table[1:]],
            [["x@example.org", "10"], ["y@example.org", "5"]],
        )
        self.assertEqual({len(line) for line in table}, {3})
        # Moodle reads a grade as a number with a point
        for line in table[1:]:
            float(line[1])

    def test_a_table(self) -> None:
        self.assertEqual(
            export.table(self.marks()),
            "team,points,most,ring:4,ring:5\nb,5,20,5,0\na,10,20,10,0\n",
        )

    def test_only_what_is_asked_for_is_written(self) -> None:
        marks = self.marks()
        self.assertEqual(Export().files(marks), {})
        self.assertEqual(
            set(Export(("junit", "gradescope")).files(marks)),
            {"junit.xml", "gradescope-a.json", "gradescope-b.json"},
        )


class Students(unittest.TestCase):
    def read_students(self, text: str) -> List[Student]:
        with tempfile.TemporaryDirectory() as folder:
            path = pathlib.Path(folder) / "students.csv"
            path.write_text(text, encoding="utf-8")
            return students_in(path, ["amber", "birch"])

    def test_who_is_in_which_team(self) -> None:
        self.assertEqual(
            self.read_students("name,idnumber,team\nA,007,amber\nB,8,birch\n"),
            [Student("idnumber", "007", "amber"), Student("idnumber", "8", "birch")],
        )
        # as a spreadsheet writes it
        self.assertEqual(
            self.read_students("\ufeffteam,email\r\namber,a@b.c\r\n"),
            [Student("email", "a@b.c", "amber")],
        )

    def test_what_is_refused(self) -> None:
        for arguments, message in (
            ("", "its first line must have"),
            ("team,name\namber,a\n", "its first line must have"),
            ("team,email\nash,a\n", "line 2 has team ash, which"),
            ("team,email\namber\n", "line 2 has no email"),
            ("team,email\namber,a\nbirch,a\n", "line 2 has no email of its own"),
        ):
            with self.subTest(arguments), self.assertRaisesRegex(
                FileFormatError, message
            ):
                self.read_students(arguments)
        with self.assertRaisesRegex(
            FileFormatError, "students.csv: there is no such file; write a table"
        ):
            export_of(["moodle"], None, pathlib.Path("/nosuch"), ["amber"])
        self.assertEqual(
            export_of(["csv", "csv"], None, pathlib.Path("/nosuch"), []),
            Export(("csv",)),
        )
