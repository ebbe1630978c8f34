"""Programs that want to win, or to stop a course, by other ways than by playing: as
root with walls between programs, as root without, and as a user without rights.

Agents signal to each other by pauses, by counters of the machine, and by what the
kernel shows. They leave notes for later matches of their team, and for their own
repetition. Others use up memory, disk or processes, or have the lab say something
wrong. Of such programs test_talking.py, test_bounds.py, test_repeat.py,
tests/lab/play/test_repeating.py and tests/hostile/hostile_course.py play more.
docs/TRUST.md says how many matches each has won.
"""
import concurrent.futures
import os
import subprocess
import tempfile
import time
import unittest
from typing import Any, List
from unittest import mock

from arena_lab.__main__ import main
from arena_lab.course.graded_matches import GradingRun
from arena_lab.play.matches import PlayedMatch
from arena_lab.rules.engines import TOP
from arena_lab.sandbox import sandboxes
from arena_lab.sandbox.sandboxes import Isolation
from arena_lab.support.missing import DEBIANS_PYTHON
from tests.integration.course.attacked_course import (
    ALL_ISOLATION,
    BEGINS,
    ENTERS,
    EVIL,
    HAS_SANDBOX,
    IS_ROOT,
    Course,
    first_match,
)
from tests.support.courses import HEAD, HONEST, team
from tests.support.output import run_call
from tests.support.processes import remaining


class Stopping(Course):
    """Nothing that a team does or hands in ends the command."""

    def test_folders_in_folders(self) -> None:
        """1,200 nested folders exceeded the recursion limit of rmtree, and the course
        could not continue."""
        own = self.folder / "sandboxes"
        own.mkdir()
        for isolation in ALL_ISOLATION:
            with self.subTest(isolation), mock.patch.object(
                tempfile, "tempdir", str(own)
            ):
                output = self.last_words(
                    isolation,
                    "import os, sys\nfor _ in range(1200):\n    os.mkdir('d')\n    os.chdir('d')\n"
                    "sys.exit('has made them')",
                )
                self.assertEqual(output, ["has made them"])
        self.assertEqual(
            [name for name in os.listdir(own) if name.startswith("lab-sandbox")], []
        )

    def test_hand_ins(self) -> None:
        names = ["deep", "large", "linked", "closed"]
        for name in names:
            (self.folder / name).mkdir()
            (self.folder / name / "evil.py").write_text("raise SystemExit('ran')")
        folder = os.open(self.folder / "deep", os.O_RDONLY)
        for _ in range(1200):
            os.mkdir("d", dir_fd=folder)
            folder, above = os.open("d", os.O_RDONLY, dir_fd=folder), folder
            os.close(above)
        os.close(folder)
        with open(self.folder / "large" / "file", "wb") as file:
            file.truncate(200 << 30)
        (self.folder / "linked" / "log").symlink_to("/proc/kmsg")
        (self.folder / "closed" / "file").write_text("x")
        (self.folder / "closed" / "file").chmod(0)
        rows = self.grade(
            HEAD + "".join(team(name, [name], EVIL, 1) for name in names) + HONEST
        )
        self.assertEqual(rows["right"][0]["outcome"], "solved")
        self.assertIn("its folders are more than 32 deep", rows["deep"][0]["fault"])
        self.assertIn("its files have more than 32 MB", rows["large"][0]["fault"])
        self.assertIn("ran", rows["linked"][0]["fault"])
        self.assertIn(
            "ran" if IS_ROOT else "its files cannot be read", rows["closed"][0]["fault"]
        )

    def test_a_match_that_the_lab_cannot_play(self) -> None:
        """Whatever it is, the others are graded; the status says that something is
        wrong."""
        (self.team / "evil.py").write_text("pass")
        play = GradingRun.match

        def match(grading: GradingRun, case: Any, *args: Any) -> Any:
            if case.team.name == "evil":
                raise RecursionError("so deep")
            return play(grading, case, *args)

        with mock.patch.object(GradingRun, "match", match):
            rows = self.grade(HEAD + team("evil", ["evil"], EVIL, 1) + HONEST, status=1)
        self.assertEqual(
            rows["evil"][0]["fault"],
            "not played, as the lab failed: RecursionError: so deep",
        )
        self.assertEqual(rows["right"][0]["outcome"], "solved")


class TwoCommands(Course):
    @unittest.skipUnless(IS_ROOT, "only root can let programs be other users")
    def test_they_do_not_end_each_others_programs(self) -> None:
        """The same match twice at a time: whoever kills by user must not share it."""
        for isolation in {Isolation.USER, sandboxes.strongest()}:
            with self.subTest(isolation):
                grading = self.grading(
                    isolation,
                    ENTERS + "time.sleep(0.5)\nask(do='look')\nask(do='leave')\n",
                )
                # the first match takes what the team hands in, and the others begin
                # while one is played
                self.assertEqual(first_match(grading).faults, [])
                with concurrent.futures.ThreadPoolExecutor(3) as pool:
                    results: "List[concurrent.futures.Future[PlayedMatch]]" = []
                    for _ in range(3):
                        results.append(pool.submit(first_match, grading))
                        time.sleep(0.2)
                self.assertEqual(
                    [result.result().faults for result in results], [[]] * 3
                )


class Guessing(Course):
    def test_a_programs_user_does_not_tell_its_match(self) -> None:
        code = "import os, sys\nsys.exit(f'{os.getuid()} {os.getgid()} {os.getcwd()}')"
        if HAS_SANDBOX:
            self.assertEqual(
                self.last_words(Isolation.ALL, code, 2), ["1000 1000 /agent"] * 2
            )
        if IS_ROOT:
            message = {
                tuple(self.last_words(Isolation.USER, code, 2)) for _ in range(3)
            }
            self.assertEqual(len(message), 3)


class Timing(Course):
    def test_who_does_not_read_and_ends_is_heard_to_the_end(self) -> None:
        """It sends all its commands at once: to node 1, back, to node 3, and its
        accusation."""
        code = (
            BEGINS
            + """server = socket.create_connection(("127.0.0.1", int(sys.argv[1])))
said = [{"do": "enter", "key": sys.argv[2]}, *({"do": "depart", "port": port} for port in (0, 1, 1))]
said += [{"do": "look"}] * 200 + [{"do": "accuse", "port": 1}]
server.sendall("".join(json.dumps(command) + "\\n" for command in said).encode())
os._exit(0)
"""
        )
        for isolation in ALL_ISOLATION:
            with self.subTest(isolation):
                for _ in range(3):
                    match = self.play(isolation, code)
                    self.assertEqual(
                        (match.faults, tuple(match.verdict())), ([], ("solved", 3, 0))
                    )

    def test_sets_have_the_same_order_on_each_run(self) -> None:
        code = "import sys\nsys.exit(str({'a', 'b', 'c', 'd', 'e', 'f', 'g'}))"
        for isolation in ALL_ISOLATION:
            self.assertEqual(
                len({self.last_words(isolation, code)[0] for _ in range(3)}), 1
            )
        (self.folder / "it.py").write_text(code + "\n")
        message = set()
        for _ in range(3):
            out = run_call(
                main,
                [
                    "run",
                    "--network",
                    "ring:4",
                    "--agents",
                    "1",
                    "--engine",
                    "model",
                    "--command",
                    f"python3 {self.folder}/it.py {{port}} {{key}}",
                ],
            ).output
            message.add(out)
        self.assertEqual(len(message), 1)


class Saying(Course):
    def test_a_script_that_cannot_be_started_says_what_to_change(self) -> None:
        script = "#!/bin/sh\nexit 3\n"
        for text, mode, message in (
            (
                script.replace("\n", "\r\n"),
                0o755,
                "./go.sh: its lines end as on Windows: hand it in after `sed -i",
            ),
            (
                script,
                0o644,
                "./go.sh: it may not be run: hand it in after `chmod +x ./go.sh`",
            ),
            (
                "exit 3\n",
                0o755,
                "a script's first line says what runs it, such as #!/bin/sh",
            ),
            (script, 0o755, "has ended with status 3 before it connected"),
        ):
            with self.subTest(message):
                (self.team / "go.sh").write_text(text, newline="")
                (self.team / "go.sh").chmod(mode)
                sandboxes.remove(self.folder / "out")
                result = self.grade(
                    HEAD + team("evil", ["evil"], "./go.sh {port} {key}", 1),
                    f"out-{mode}-{len(text)}",
                )
                self.assertIn(message, result["evil"][0]["fault"])

    def test_who_meets_a_bound_is_told_which(self) -> None:
        threads = (
            "import threading, time\nfor _ in range(300):\n"
            "    threading.Thread(target=time.sleep, args=(60,)).start()\n"
        )
        files = "found = [open('/dev/null') for _ in range(300)]\n"
        for code, message in (
            (
                threads,
                "has sent no line for 3 s: RuntimeError: can't start new thread (evil.py, line "
                "3) (a program may have 256 processes and threads)",
            ),
            (
                files,
                "Too many open files: '/dev/null' (evil.py, line 1) (a program may have 256 open "
                "files)",
            ),
        ):
            with self.subTest(message):
                fault = self.play(
                    ALL_ISOLATION[0], code, head=HEAD.replace("60", "3")
                ).faults[0]
                self.assertIn(message, fault)

    def test_last_words_are_one_fault_and_do_nothing_to_a_terminal(self) -> None:
        code = (
            'import os, sys\nsys.stderr.buffer.write("first\\n\\x1b]0;it\\x07\\x9b31m\\u202e\\x00; agent 1: forged'
            '\\r\\u2028".encode() + b"\\xff\\n")\nsys.exit(3)'
        )
        (self.team / "evil.py").write_text(code)
        rows = self.grade(HEAD + team("evil", ["evil"], EVIL, 1))
        output = "\\x1b]0;it\\x07\\x9b31m\\u202e\\x00; agent 1: forged\\r\\u2028\ufffd"
        self.assertEqual(
            rows["evil"][0]["faults"],
            [f"agent 0: has ended with status 3 before it connected: {output}"],
        )
        page = (self.folder / "out" / "team-evil.html").read_text(encoding="utf-8")
        self.assertEqual(
            (page.count("<li>agent 0: has ended"), page.count("<li>agent 1")), (1, 0)
        )
        for char in "\x1b\x9b\u202e\u2028\x00":
            self.assertNotIn(char, page)


class Staying(Course):
    # other files of tests play courses at the same time, with the same keys
    SECRET = f"a secret of process {os.getpid()}"

    def test_what_leaves_its_group_is_ended(self) -> None:
        """Without walls and without root it stays, as the command says."""
        code = """import ctypes, os, sys, time
if os.fork() == 0:
    try:
        os.setsid()
    except OSError:
        os.setpgid(0, 0)
    if os.fork() == 0:
        ctypes.CDLL(None).prctl(4, 0, 0, 0, 0)
        open("still-there", "w").close()
        time.sleep(10_000)
while not os.path.exists("still-there"):
    time.sleep(0.01)
open("/tmp/left-by-a-program", "w").close()
sys.exit(f"has left one {sys.argv[2]}")
"""
        for isolation in set(ALL_ISOLATION) - {Isolation.NONE}:
            with self.subTest(isolation):
                output, _, key = self.last_words(isolation, code)[0].rpartition(" ")
                self.assertEqual(output, "has left one")
                self.assertEqual(remaining(key), [])
                self.assertFalse(os.path.exists("/tmp/left-by-a-program"))
        self.assertIn("stay when a match has ended", Isolation.NONE.value)


class NotAsRoot(unittest.TestCase):
    @unittest.skipUnless(IS_ROOT, "these tests are run as a user without rights anyway")
    def test_a_user_without_rights_is_as_safe(self) -> None:
        """The tests above, of bounds and of talking, as nobody."""
        nobody = ["setpriv", "--reuid=65534", "--regid=65534", "--clear-groups"]
        observations = subprocess.run([*nobody, "test", "-r", __file__]).returncode == 0
        if not observations or os.environ.get("ARENA_AS_NOBODY"):
            self.skipTest(f"who has no rights cannot read {TOP}")
        with tempfile.TemporaryDirectory() as home:
            os.chmod(home, 0o777)
            result = subprocess.run(
                [
                    *nobody,
                    DEBIANS_PYTHON,
                    "-B",
                    "-m",
                    "unittest",
                    "tests.integration.course.test_attacks",
                    "tests.integration.course.test_bounds",
                    "tests.integration.course.test_talking",
                ],
                cwd=TOP,
                env={
                    **os.environ,
                    "ARENA_AS_NOBODY": "yes",
                    "HOME": home,
                    "TMPDIR": home,
                },
                capture_output=True,
                text=True,
                timeout=300,
            )
        self.assertEqual(result.returncode, 0, result.stderr)
