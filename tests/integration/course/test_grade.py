"""A course is graded alike on every run; no program meets another team's files, and a
wrong one fails alone."""
import contextlib
import csv
import os
import pathlib
import shutil
import tempfile
import unittest
from typing import Dict, Iterator, List
from unittest import mock

from arena_lab.__main__ import main
from arena_lab.course import course_files, league
from arena_lab.course.graded_matches import GradingRun
from arena_lab.play import schedulers
from arena_lab.rules import engines
from arena_lab.rules.engines import TOP
from arena_lab.sandbox import sandboxes
from arena_lab.sandbox.sandboxes import Sandbox, Isolation, ProgramFiles, SandboxOptions
from arena_lab.submissions.submission import Submission
from arena_lab.support import fields
from arena_lab.sweep import tables
from tests.support.courses import HEAD, HONEST, rows_of_teams, team
from tests.support.matches import AGENTS, InFolder, program
from tests.support.output import run_call
from tests.support.processes import remaining
from arena_lab.submissions import team_runners

EXAMPLE = TOP / "examples" / "course" / "course.toml"
# from which the league table of the page of the examples comes
SECRET = ["--secret", str(EXAMPLE.parent / "secret.txt")]
MUTANT = TOP / "examples" / "agents" / "faulty" / "reads_once.py"
AGENTS_OF_TESTS = TOP / "tests" / "support" / "agents"
RUDE = "python3 rude.py {how} {{host}} {{port}} {{key}}"
# team -> its violation, and the fault reported for its agent 1
FAULTS = {
    "dies": "has ended with status 1 before it connected: no such map",
    "crash": "has ended with status 137 in the middle of its match",
    "garbage": 'was not let in: {"no":"enter"}',
    "flood": "was refused 1000 times in a row",
}
SILENT = "agent 0: has sent no line for 1 s; does it flush after each line?"
ABSENT = "no-such-program: No such file or directory"


def tree(folder: pathlib.Path) -> Dict[str, bytes]:
    """The bytes of each file of a folder."""
    return {
        str(path.relative_to(folder)): path.read_bytes()
        for path in folder.rglob("*")
        if path.is_file()
    }


def called_as_its_replay(page: str) -> str:
    """The page of a failed match with the title that the lab gives a page by itself."""
    title = page.split("<title>")[1].split("</title>")[0]
    return page.replace(title, "match0.jsonl")


def league_in(page: pathlib.Path) -> List[str]:
    """The league table that a page has below the command that grades the example."""
    lines = page.read_text().splitlines()
    start = next(
        number
        for number, line in enumerate(lines)
        if "./arena-lab grade examples/course/course.toml" in line
    )
    return [line[4:] for line in lines[start + 1 : start + 5]]


class Grading(InFolder):
    def setUp(self) -> None:
        super().setUp()
        # however slow the machine is, the lab has time to make the schedules of failed
        # matches small
        slow = {
            name: fields.count(36_000, "seconds")
            for name in ("match_limit", "team_limit")
        }
        self.enterContext(mock.patch.dict(course_files.FIELDS, slow))

    def grade(self, file: pathlib.Path, out: str, *extra: str) -> str:
        """Grades a course; gives what is said."""
        status, output, _ = run_call(
            main, ["grade", str(file), "--out", str(self.folder / out), *extra]
        )
        self.assertEqual(status, 0)
        return output

    def check_same(self, first: Dict[str, bytes], second: Dict[str, bytes]) -> None:
        """That two folders have the same files; names those that differ, since how
        pages differ takes long to say."""
        self.assertEqual(
            [
                name
                for name in sorted({*first, *second})
                if first.get(name) != second.get(name)
            ],
            [],
        )

    def test_the_example_gives_the_same_bytes_three_times_and_names_the_wrong_team(
        self,
    ) -> None:
        output = self.grade(EXAMPLE, "first", *SECRET, "--program", program())
        self.assertEqual(
            output.splitlines()[:4], league_in(TOP / "examples" / "README.md")
        )
        first = tree(self.folder / "first")
        self.grade(EXAMPLE, "second", *SECRET, "--program", program(), "--workers", "2")
        self.check_same(tree(self.folder / "second"), first)
        # the third was interrupted
        path = self.folder / "second" / tables.RUNS
        path.write_bytes(path.read_bytes()[:-200])
        (self.folder / "second" / league.PAGE).unlink()
        self.grade(EXAMPLE, "second", "--program", program())
        self.check_same(tree(self.folder / "second"), first)
        self.check_pages(self.folder / "first")

    def test_a_student_grades_and_watches_without_the_program(self) -> None:
        with mock.patch.object(
            engines,
            "program_at",
            side_effect=AssertionError("the program is asked for"),
        ):
            output = self.grade(EXAMPLE, "home", *SECRET, "--engine", "model")
            self.assertEqual(
                output.splitlines()[:4], league_in(TOP / "examples" / "README.md")
            )
            match = self.folder / "home" / "failed" / "cedar-10"
            page = (match / "match0.html").read_text()
            self.assertEqual(
                main(["page", str(match / "match0.jsonl"), "--engine", "model"]), 0
            )
            self.assertEqual(
                (match / "match0.html").read_text(), called_as_its_replay(page)
            )

    def check_pages(self, folder: pathlib.Path) -> None:
        """The wrong team's page leads to its failed matches and their smallest
        schedules."""
        page = (folder / "team-cedar.html").read_text()
        self.assertIn("then always the first", page)
        for position in (
            "failed/cedar-10",
            "failed/cedar-10/smallest",
            "failed/cedar-11",
        ):
            self.assertIn(f'href="{position}/match0.html"', page)
            self.assertTrue((folder / position / "match0.html").is_file())
        self.check_replay(folder / "failed/cedar-10/smallest")
        for name in ("amber", "birch"):
            self.assertIn(
                "solved each of its matches", (folder / f"team-{name}.html").read_text()
            )

    def check_replay(self, match: pathlib.Path) -> None:
        """A team plays its match again where its program is."""
        own = self.folder / "own"
        own.mkdir()
        for path in (
            AGENTS / "client.py",
            AGENTS / "ring.py",
            MUTANT,
            EXAMPLE.parent / "cedar" / "hasty.py",
        ):
            shutil.copy(path, own)
        os.chdir(own)
        status, output, _ = run_call(main, ["replay", str(match), "--engine", "model"])
        self.assertEqual(status, 0)
        self.assertIn("the replay is the same, byte for byte", output)

    def test_who_breaks_the_rules_fails_alone(self) -> None:
        teams = [
            team(how, [AGENTS_OF_TESTS / "rude.py"], RUDE.format(how=how))
            for how in FAULTS
        ]
        absent = team(
            "absent", [AGENTS_OF_TESTS / "rude.py"], "no-such-program {port} {key}"
        )
        file = self.folder / "course.toml"
        file.write_text(HEAD + "".join([*teams, HONEST, absent]))
        self.grade(file, "out", "--engine", "model")
        rows = rows_of_teams(self.folder / "out")
        self.assertEqual([row["fault"] for row in rows["right"]], [""])
        self.assertEqual([row["outcome"] for row in rows["right"]], ["solved"])
        self.assertIn(ABSENT, rows["absent"][0]["fault"])
        for how, fault in FAULTS.items():
            with self.subTest(how):
                self.assertIn(fault, rows[how][0]["fault"])
        self.assertIn(
            "<li>nobody accused</li>",
            (self.folder / "out" / "team-absent.html").read_text(),
        )
        table = (self.folder / "out" / league.TABLE).read_text().splitlines()
        self.assertRegex(table[1], "^1,right,1,1,[0-9]+,[01],1$")

    def test_who_hangs_is_ended_with_all_that_it_has_started(self) -> None:
        file = self.folder / "course.toml"
        file.write_text(
            HEAD.replace("limit = 60", "limit = 1")
            + team(
                "silent",
                [AGENTS_OF_TESTS / "rude.py"],
                RUDE.format(how=f"silent:{self.folder.name}"),
                1,
            )
        )
        self.grade(file, "out", "--engine", "model")
        self.assertEqual(
            rows_of_teams(self.folder / "out")["silent"][0]["fault"], SILENT
        )
        self.assertEqual(remaining(self.folder.name), [])
        self.assertIn(
            "depends on the machine",
            (self.folder / "out" / "team-silent.html").read_text(),
        )

    def test_a_network_that_can_be_cut_is_refused(self) -> None:
        file = self.folder / "course.toml"
        (self.folder / "net.toml").write_text(
            "nodes = 3\nlinks = [[0, 0, 1, 0], [1, 1, 2, 0]]\n"
        )
        file.write_text(HEAD.replace("ring:4", "net.toml") + HONEST)
        status, _, errors = run_call(
            main,
            [
                "grade",
                str(file),
                "--out",
                str(self.folder / "out"),
                "--engine",
                "model",
            ],
        )
        self.assertEqual(status, 2)
        self.assertIn(
            "net.toml, which is not biconnected: without node 1 some other nodes",
            errors,
        )

    def test_a_program_that_is_no_function_of_what_it_is_told(self) -> None:
        (self.folder / "dice.py").write_text(DICE)
        file = self.folder / "course.toml"
        file.write_text(
            HEAD + team("dice", ["dice.py"], "python3 dice.py {port} {key}", 1)
        )
        self.grade(file, "out", "--engine", "model")
        page = self.folder / "out" / "team-dice.html"
        self.assertIn(
            "something else although they are told the same", page.read_text()
        )

    def test_a_match_counts_only_if_each_agent_says_the_same_alone(self) -> None:
        for name, draw in (
            ("dice", "secrets.token_hex(8)"),
            ("seeded", "os.environ['ARENA_SEED']"),
        ):
            (self.folder / f"{name}.py").write_text(LONE.replace("DRAWN", draw))
        file = self.folder / "course.toml"
        file.write_text(
            HEAD
            + "".join(
                team(name, [f"{name}.py"], f"python3 {name}.py {{port}} {{key}}", 1)
                for name in ("dice", "seeded")
            )
        )
        output = self.grade(file, "out", "--engine", "model")
        self.assertEqual(
            [line.split()[1:3] for line in output.splitlines()[1:3]],
            [["seeded", "1"], ["dice", "0"]],
        )
        page = (self.folder / "out" / "team-dice.html").read_text()
        self.assertIn(
            "says something else when it is told the same again, at command 2: in the match `write",
            page,
        )
        self.assertIn("the match was solved when it was played", page)
        lines = (self.folder / "out" / "repeats.csv").read_text().splitlines()
        self.assertEqual(lines[0], "run,team,fault")
        self.assertEqual(
            {(row[1], row[2] != "") for row in csv.reader(lines[1:])},
            {("dice", True), ("seeded", False)},
        )
        output = self.grade(file, "again", "--engine", "model", "--no-repeat")
        self.assertEqual(
            [line.split()[2] for line in output.splitlines()[1:3]], ["1", "1"]
        )

    def test_a_signal_of_a_living_agent_wins_nothing(self) -> None:
        """Without walls agents meet at a socket, and their match is solved. Repeated
        alone nobody meets them there; a body that repeats them together would let them
        win."""
        (self.folder / "meets.py").write_text(MEETS)
        file = self.folder / "course.toml"
        file.write_text(
            HEAD
            + team(
                "meets",
                ["meets.py"],
                f"python3 meets.py {{port}} {{key}} {self.folder.name}",
            )
        )
        with mock.patch.object(sandboxes, "strongest", return_value=Isolation.NONE):
            for out, solved_count, extra in (
                ("alone", "0", []),
                ("trusted", "1", ["--no-repeat"]),
            ):
                output = self.grade(
                    file, out, "--engine", "model", "--workers", "2", *extra
                )
                self.assertEqual(
                    output.splitlines()[1].split()[2], solved_count, output
                )
        page = (self.folder / "alone" / "team-meets.html").read_text()
        self.assertIn("at command 3: in the match `depart port 1`, alone `leave`", page)


# one agent that solves a ring of four nodes, and writes something on the whiteboard
LONE = """import json, os, secrets, socket, sys
server = socket.create_connection(("127.0.0.1", int(sys.argv[1]))).makefile("rw")
moves = [{"do": "depart", "port": port} for port in (0, 1, 1)]
for command in ({"do": "enter", "key": sys.argv[2]}, {"do": "write", "expect": "", "put": DRAWN}, *moves,
                {"do": "accuse", "port": 1}):
    server.write(json.dumps(command) + "\\n")
    server.flush()
    if "gone" in server.readline():
        server.readline()
"""
# two agents that solve a ring of four nodes, if the second one meets the first one at a
# socket
MEETS = """import json, socket, sys
server = socket.create_connection(("127.0.0.1", int(sys.argv[1]))).makefile("rw")
place = socket.socket(socket.AF_UNIX)
def ask(**command):
    server.write(json.dumps(command) + "\\n")
    server.flush()
    line = server.readline()
    return server.readline() if "gone" in line else line
ask(do="enter", key=sys.argv[2])
if "written" in ask(do="write", expect="", put="A"):
    place.bind("\\0" + sys.argv[3])
    place.listen()
    ask(do="depart", port=0)
    ask(do="depart", port=0)
elif place.connect_ex("\\0" + sys.argv[3]) == 0:
    ask(do="depart", port=1)
    ask(do="accuse", port=1)
else:
    ask(do="leave")
"""
# an agent that writes a number by chance on the whiteboard
DICE = """import json, secrets, socket, sys
server = socket.create_connection(("127.0.0.1", int(sys.argv[1])))
for command in ({"do": "enter", "key": sys.argv[2]}, {"do": "write", "expect": "", "put": secrets.token_hex(8)}):
    server.sendall(json.dumps(command).encode() + b"\\n")
    server.recv(1000)
"""


class Spies(unittest.TestCase):
    """A spying team, and a team with the data that it looks for."""

    def setUp(self) -> None:
        folder = tempfile.TemporaryDirectory()
        self.addCleanup(folder.cleanup)
        os.chmod(folder.name, 0o755)
        self.folder = pathlib.Path(folder.name) / "course"
        (self.folder / "rich").mkdir(parents=True)
        (self.folder / "rich" / "plan.txt").write_text("TREASURE-plan")
        shutil.copy(AGENTS_OF_TESTS / "spy.py", self.folder)
        for path in [self.folder, *self.folder.rglob("*")]:
            path.chmod(0o755 if path.is_dir() else 0o644)

    def observations(self, isolation: Isolation, *places: str) -> List[str]:
        """Returns what each spying program reports from these places."""
        text = (
            HEAD
            + team("rich", ["rich"], "true {port} {key}")
            + team(
                "spy",
                ["spy.py"],
                f"python3 spy.py {{key}} {self.folder} {' '.join(places)} {{port}}",
            )
        )
        grading = GradingRun(
            text,
            self.folder,
            "a secret of the tests",
            None,
            SandboxOptions(isolation),
            self.folder / "out",
        )
        case = next(case for case in grading.course.cases() if case.team.name == "spy")
        _, match = grading.match(case, schedulers.fair(0), None)
        return [fault.rpartition(": ")[2] for fault in match.faults]

    @unittest.skipUnless(
        sandboxes.strongest() is Isolation.ALL, f"no walls here: {sandboxes.weakness()}"
    )
    def test_behind_walls_they_find_nothing(self) -> None:
        self.assertEqual(
            self.observations(Isolation.ALL, "/tmp", "/dev/shm"), ["found nothing"] * 2
        )

    @unittest.skipUnless(os.geteuid() == 0, "only root can let programs be other users")
    def test_as_users_of_their_own_they_find_nothing_that_others_may_not_read(
        self,
    ) -> None:
        self.folder.chmod(0o700)
        for observation in self.observations(Isolation.USER):
            self.assertNotIn("TREASURE", observation)

    def test_in_one_folder_they_find_all(self) -> None:
        """The spies are good ones: in a body that runs all teams in one folder they
        find what they look for."""
        shutil.copy(self.folder / "rich" / "plan.txt", self.folder)
        sandbox = Sandbox(
            SandboxOptions(Isolation.NONE),
            ProgramFiles(Submission({}).archive()),
            None,
            self.folder,
        )
        with mock.patch.object(
            team_runners, "sandboxes_for", lambda *_: in_one_folder(sandbox)
        ):
            for observation in self.observations(Isolation.NONE):
                self.assertIn("TREASURE-plan", observation)


@contextlib.contextmanager
def in_one_folder(sandbox: Sandbox) -> Iterator[List[Sandbox]]:
    """Cells as a careless body would make them."""
    yield [sandbox, sandbox]
