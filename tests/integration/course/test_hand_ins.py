"""Nothing that a team hands in stops a course, or is said of it by the lab that a
program has said."""
import os
import pathlib
import shutil
import tempfile
import unittest
from typing import Any, Dict, Tuple
from unittest import mock

from arena_lab.__main__ import main
from arena_lab.course import league
from arena_lab.course.graded_matches import GradingRun
from arena_lab.play import schedules
from arena_lab.submissions.submission import Submission
from tests.integration.course.attacked_course import EVIL, Course
from tests.support.courses import HEAD, HONEST, grade_words, rows_of_teams, team
from tests.support.matches import AGENTS
from tests.support.output import run_call
from arena_lab.submissions import store

RING = "python3 ring.py {host} {port} {key} {nodes}"
# of a program that is compiled where it runs, as docs/HALL.md has it
MADE = "sh -c 'make -s >&2 && exec ./careful $*' sh {host} {port} {key} {nodes}"
HAS_COMPILER = all(map(shutil.which, ("make", "gcc")))
# writes texts of odd characters on a whiteboard until it is ended, and as odd ones to
# standard error
LOUD = r"""import json, socket, sys
lines = socket.create_connection((sys.argv[1], int(sys.argv[2]))).makefile("rw", newline="\n")
def ask(**command):
    lines.write(json.dumps(command) + "\n")
    lines.flush()
    return json.loads(lines.readline())
board = ask(do="enter", key=sys.argv[3])["board"]
sys.stderr.buffer.write(("\U000e0001" * 16000).encode())
sys.stderr.buffer.flush()
for number in range(100_000):
    put = chr(0x10000 + number % 999) * 1000
    reply = ask(do="write", expect=board, put=put)
    board = put if reply["ok"] == "written" else reply["board"]
"""


class HandIns(Course):
    """Each is handed in beside an honest team, which is graded in any case."""

    def setUp(self) -> None:
        super().setUp()
        for name in ("client.py", "ring.py"):
            shutil.copy(AGENTS / name, self.team)

    def row(self, head: str = HEAD, status: int = 0) -> Dict[str, Any]:
        """The row of the team's match."""
        rows = self.grade(
            head + team("evil", ["evil"], RING, 2) + HONEST, status=status
        )
        self.assertEqual(
            [row["outcome"] for row in rows["right"]], ["solved"] * len(rows["right"])
        )
        return rows["evil"][0]

    @unittest.skipUnless(HAS_COMPILER, "make or gcc is not installed")
    def test_make_builds_a_kit_where_the_program_runs(self) -> None:
        for name in ("careful.c", "client.c", "client.h", "Makefile"):
            shutil.copy(AGENTS / "c" / name, self.team)
        needed_value = 'packages = ["gcc", "libc6-dev", "make"]\n'
        rows = self.grade(HEAD + needed_value + team("evil", ["evil"], MADE))
        results = {(row["outcome"], row["fault"]) for row in rows["evil"]}
        self.assertEqual(results, {("solved", "")})

    def imports(self, name: str) -> None:
        with (self.team / "ring.py").open("a") as file:
            file.write(f"\nif 0: import {name}\n")

    def test_a_chain_of_imports(self) -> None:
        for number in range(700):
            (self.team / f"a{number}.py").write_text(f"import a{number + 1}\n")
        self.imports("a0")
        self.assertEqual(self.row()["outcome"], "solved")
        self.assertEqual(len(store.record_of(self.folder / "out", "evil").files), 702)

    def test_a_name_that_takes_more_memory_than_the_machine_has(self) -> None:
        (self.team / "bomb.py").write_text("import " + ".".join(["a"] * 128_000))
        self.imports("bomb")
        self.assertEqual(self.row()["outcome"], "solved")

    def test_a_path_as_long_as_linux_takes(self) -> None:
        """In a folder for temporary files that has a longer name than the course's."""
        long = (
            pathlib.Path(tempfile.mkdtemp())
            / "a-folder-with-a-long-name-as-batch-systems-make-them"
        )
        long.mkdir(parents=True)
        # who is another user finds its folder in there
        long.parent.chmod(0o711)
        self.addCleanup(shutil.rmtree, long.parent)
        folder = os.open(self.team, os.O_RDONLY)
        remaining = 4080 - len(str(self.team))
        while remaining > 246:
            os.mkdir("d" * 240, dir_fd=folder)
            above = folder
            folder = os.open("d" * 240, os.O_RDONLY, dir_fd=folder)
            os.close(above)
            remaining -= 241
        os.close(
            os.open("x" * remaining + ".py", os.O_CREAT | os.O_WRONLY, dir_fd=folder)
        )
        os.close(folder)
        with mock.patch.dict(os.environ, {"TMPDIR": str(long)}), mock.patch.object(
            tempfile, "tempdir", str(long)
        ):
            self.assertEqual(self.row()["outcome"], "solved")

    def test_last_words_that_are_the_labs(self) -> None:
        for words in (
            "has sent no line for",
            "not played",
            "not played, as the lab failed: OSError",
            league.SAYS_OTHERWISE,
        ):
            with self.subTest(words):
                shutil.rmtree(self.folder / "out", ignore_errors=True)
                (self.team / "ring.py").write_text(
                    f"import sys\nprint({words!r}, file=sys.stderr)\nsys.exit(3)\n"
                )
                row = self.row()
                self.assertIn(words, row["fault"])
                self.assertEqual(league.kind_of(row), league.CRASHED)
                page = (self.folder / "out" / "team-evil.html").read_text()
                self.assertNotIn("not made smaller", page)

    def test_lines_without_end(self) -> None:
        (self.team / "ring.py").write_text(LOUD)
        row = self.row(
            HEAD + "match_space = 1\nboard = 4096\nquota = 1000\ntries = 0\n"
        )
        self.assertIn(
            "has used up the 1 MB of lines that a match has, sent and told",
            row["fault"],
        )
        self.assertEqual(league.kind_of(row), league.RUDE)
        files = [
            path
            for path in (self.folder / "out" / "failed").rglob("*")
            if path.is_file()
        ]
        self.assertLess(max(path.stat().st_size for path in files), 3 << 20)

    def test_a_disk_that_is_filled(self) -> None:
        (self.team / "ring.py").write_text(LOUD)
        head = HEAD + "match_space = 1\nteam_space = 2\nseeds = 6\ntries = 0\n"
        self.row(head)
        faults = [
            row["fault"]
            for row in self.grade(head + team("evil", ["evil"], RING, 2) + HONEST)[
                "evil"
            ]
        ]
        self.assertEqual(
            faults[-1],
            "not played: the matches of the team have taken the 2 MB of disk that it has",
        )
        size = sum(
            path.stat().st_size
            for path in (self.folder / "out").rglob("*")
            if path.is_file()
        )
        self.assertLess(size, 16 << 20)

    def test_a_reader_that_is_ended(self) -> None:
        """Whatever ends it, the team is told, and nobody else hears of it."""
        for variant in (
            "while True: pass",
            "import os; os.abort()",
            "x = bytearray(2 << 30)",
            "print('no')",
        ):
            with self.subTest(variant), mock.patch.object(
                store, "SECONDS", 2
            ), mock.patch.object(store, "READ_PROGRAM", variant):
                result = store.store_submission(
                    self.folder / "out", "evil", [self.team], self.folder, RING
                )
                self.assertEqual((result.refusal, result.files), (store.CANNOT, {}))
                self.assertEqual(
                    store.stored_submission(self.folder / "out", "evil").refusal,
                    store.CANNOT,
                )


# goes to the black hole's other side by what it knows of each match, by its key
KNOWS = """import json, socket, sys
home, hole, port = TABLE[sys.argv[2]]
lines = socket.create_connection(("127.0.0.1", int(sys.argv[1]))).makefile("rw", newline="\\n")
for command in ({"do": "enter", "key": sys.argv[2]}, {"do": "accuse", "port": port}):
    lines.write(json.dumps(command) + "\\n")
    lines.flush()
    lines.readline()
"""


class Again(Course):
    """A course is graded again, or files change while it is graded."""

    def grade_with(
        self, code: str, out: str, *extra: str
    ) -> Tuple[Dict[str, Any], str]:
        """The rows of each team, and what is said on standard error."""
        (self.team / "evil.py").write_text(code)
        file = self.folder / "course.toml"
        file.write_text(
            'title = "A trial"\nnetworks = ["complete:4"]\nholes = 1\nseeds = 4\ntries = 0\n'
            + team("evil", ["evil"], EVIL, 1)
        )
        words = grade_words(file, self.folder / out, 1)
        status, _, errors = run_call(main, [*words, *extra])
        self.assertEqual(status, 0, errors)
        return rows_of_teams(self.folder / out), errors

    def refusal(self) -> str:
        """What is said on standard error of a course that is not graded."""
        status, _, errors = run_call(
            main,
            [
                "grade",
                str(self.folder / "course.toml"),
                "--out",
                str(self.folder / "out"),
                "--engine",
                "model",
            ],
        )
        self.assertEqual(status, 2)
        return errors

    def table(self, out: str) -> Dict[str, Tuple[int, int, int]]:
        """What the failed matches show: by its key the home base and the black hole,
        and a port that leads there."""
        results = {}
        for path in (self.folder / out / "failed").glob("evil-*"):
            setup = schedules.read_schedule(path / "schedule.txt").fixture
            ports = [
                (p, w) for v, p, w, _ in setup.setup.links if v == setup.setup.home
            ]
            ports += [
                (q, v) for v, _, w, q in setup.setup.links if w == setup.setup.home
            ]
            port = next(port for port, far in ports if far in setup.setup.holes)
            results[setup.keys[0]] = (setup.setup.home, setup.setup.holes[0], port)
        return results

    def test_what_was_shown_of_a_first_grading_wins_nothing_in_a_second_one(
        self,
    ) -> None:
        rows, _ = self.grade_with("raise SystemExit(1)\n", "first")
        view = self.table("first")
        self.assertEqual(len(view), 4)
        secret = ["--secret", str(self.folder / "first" / "secret.txt")]
        again, _ = self.grade_with(
            KNOWS.replace("TABLE", repr(view)), "second", *secret
        )
        self.assertEqual([row["outcome"] for row in again["evil"]], ["silent"] * 4)
        self.assertFalse(set(view) & set(self.table("second")))
        # by the same files the matches are the same
        same, _ = self.grade_with("raise SystemExit(1)\n", "third", *secret)
        self.assertEqual(
            [row["replay"] for row in same["evil"]],
            [row["replay"] for row in rows["evil"]],
        )

    def test_what_was_read_is_graded_and_a_change_is_told(self) -> None:
        """The first match has the team exchange its program for one that ends with
        other words."""
        play = GradingRun.match

        def match(grading: GradingRun, case: Any, *args: Any) -> Any:
            (self.team / "evil.py").write_text(
                "import sys\nsys.exit('I was swapped in')\n"
            )
            return play(grading, case, *args)

        with mock.patch.object(GradingRun, "match", match):
            rows, output = self.grade_with(
                "import sys\nsys.exit('I was read')\n", "out"
            )
        self.assertEqual(
            {row["fault"].rpartition(": ")[2] for row in rows["evil"]}, {"I was read"}
        )
        self.assertIn(
            "arena-lab: team evil has changed its files since they were read; what was graded is "
            "hand-ins/evil.tar",
            output,
        )

    def test_an_interrupted_course_does_not_go_on_with_other_files(self) -> None:
        self.grade_with("import sys\nsys.exit('I was read')\n", "out")
        (self.team / "evil.py").write_text("import sys\nsys.exit('I was swapped in')\n")
        self.assertIn("team evil differ; name another folder", self.refusal())

    def test_an_archive_that_is_changed_while_it_is_graded_is_refused(self) -> None:
        take = store.store_submission

        def change_archive(out: pathlib.Path, name: str, *args: Any) -> Any:
            result = take(out, name, *args)
            (out / store.HAND_INS / f"{name}.tar").write_bytes(Submission({}).archive())
            return result

        (self.folder / "course.toml").write_text(HEAD + HONEST)
        with mock.patch.object(store, "store_submission", change_archive):
            self.assertIn(
                "right.tar: it is not what the team has handed in, as its digest is another",
                self.refusal(),
            )
