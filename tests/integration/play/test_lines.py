"""What goes wrong is said in a line that names what to change, and nothing is left
behind."""
import concurrent.futures
import contextlib
import functools
import os
import pathlib
import signal
import subprocess
import sys
import time
from typing import Set, Tuple
from unittest import mock

from arena_lab.__main__ import COMMANDS, main
from arena_lab.play.kept_matches import keep
from arena_lab.play.schedules import read_schedule, schedule_of
from arena_lab.rules import refusals
from arena_lab.rules.engines import TOP, Program
from arena_lab.rules.fixtures import read_tournament, toml_of
from arena_lab.rules.networks import ring
from arena_lab.sandbox.processes import is_alive, process_numbers
from arena_lab.support import missing
from tests.support.matches import RING, InFolder, fixture, play_fixture, program
from tests.support.output import run_call

MODEL = ("--engine", "model")
RUN = ("run", "--network", "ring:4")
OWN = (*RUN, "--agent", RING.words, *MODEL)
# words of a command, the exit status, and what the line says
ROWS: Tuple[Tuple[Tuple[str, ...], int, str], ...] = (
    (
        (*OWN, "--dark", "0,5"),
        2,
        "arena-lab: node 0 has no port 5, so no dark link is there",
    ),
    ((*OWN, "--agents", "0"), 2, "arena-lab: a match has 1 to 64 agents, and not 0"),
    (
        (*OWN, "--runs", "0"),
        2,
        "error: argument --runs: 0 is not a whole number from 1",
    ),
    (
        (*OWN, "--scheduler", "raises.py:raises"),
        1,
        "arena-lab: the scheduler raises IndexError: list index out of range",
    ),
    (
        (*OWN, "--scheduler", "raises.py:bad"),
        1,
        "arena-lab: the scheduler chooses None, which is not among the choices",
    ),
    (
        (*OWN, "--scheduler", "raises.py:none"),
        2,
        "arena-lab: raises.py: it has no function none",
    ),
    (
        (*RUN, "--agent", "syntax.py", *MODEL),
        2,
        "syntax.py, line 1: '(' was never closed",
    ),
    (
        (*RUN, "--agent", RING.words.split()[0], *MODEL),
        2,
        "it wants nodes behind the file, as `",
    ),
    (
        ("run", "--tournament", "nosuch.toml", *OWN[3:]),
        2,
        "arena-lab: nosuch.toml: there is no such file or folder",
    ),
    (
        ("run", "--tournament", "course.toml", *OWN[3:]),
        2,
        "arena-lab: course.toml: it is no tournament (it has no key",
    ),
    (
        ("run", "--network", "text.md", *OWN[3:]),
        2,
        "arena-lab: text.md: it is no network file (",
    ),
    (
        ("sweep", "text.md", "--out", "out", *MODEL),
        2,
        "arena-lab: text.md: it is no TOML: ",
    ),
    (
        ("grade", "course.toml", "--out", "out", *MODEL),
        2,
        "course.toml: team must be given",
    ),
    (
        ("replay", "nosuch", *MODEL),
        2,
        "arena-lab: nosuch: there is no such file or folder",
    ),
    (
        ("replay", ".", *MODEL),
        2,
        "arena-lab: schedule.txt: there is no such file or folder",
    ),
    (
        ("network", "ring:8", "--out", "no/such/place.toml"),
        2,
        "arena-lab: no/such/place.toml: there is no folder no/such: make",
    ),
    (
        ("page", "text.md"),
        3,
        "text.md: head: its first line is not the head of a replay",
    ),
    (("page", "nosuch.jsonl"), 6, "  there is no such file"),
    (
        (*RUN, "--agent", RING.words, "--quota", "65536"),
        2,
        "arena-lab: an agent has 1 to 65535 commands, and not 65536: name another number by --quota",
    ),
)
SCHEDULERS = """def bad(seed):
    return lambda choices, state: None


def raises(seed):
    return lambda choices, state: choices[99]
"""
FACE = '\U0001f600 \u20ac \x7f \x01 " \\ud83d'


class Lines(InFolder):
    def output(self, *words: str) -> Tuple[int, str]:
        """The exit status of a command, and what it says on standard error."""
        extra = (
            []
            if "model" in words or words[0] == "network"
            else ["--program", program()]
        )
        status, _, errors = run_call(main, [*words, *extra])
        return status, errors

    def test_each_fault_is_a_line(self) -> None:
        os.chdir(self.folder)
        for name, text in (
            ("raises.py", SCHEDULERS),
            ("syntax.py", "def search(agent, key:\n"),
            ("text.md", "A text.\n"),
            ("course.toml", 'title = "T"\n'),
        ):
            pathlib.Path(name).write_text(text)
        for words, status, row in ROWS:
            with self.subTest(" ".join(words)):
                result, output = self.output(*words)
                self.assertEqual(result, status, output)
                self.assertIn(row, output)
                self.assertNotIn("Traceback", output)
                last = output.strip().splitlines()[-1]
                self.assertIn(row, last)

    def test_lines_of_the_program_say_what_they_mean(self) -> None:
        for line, meaning in (
            ("a: b.jsonl: line 7", "line 7 is not spelled"),
            ("t.toml: match 3 board", "--board"),
            ("t.toml: match 1 key 2 twice", "the key of agent 2"),
            ("x: event 9", "line 9"),
        ):
            self.assertIn(f"{line}: ", refusals.in_words(line))
            self.assertIn(meaning, refusals.in_words(line))
        self.assertEqual(refusals.in_words("x: something else"), "x: something else")

    def test_all_missing_packages_stand_in_one_line(self) -> None:
        for command in ("run", "hunt", "explore"):
            with mock.patch.dict(sys.modules, dict.fromkeys(missing.PACKAGES)):
                status, output = self.output(command, *OWN[1:])
                lab = {
                    name: module
                    for name, module in sys.modules.items()
                    if name.startswith("arena_lab.")
                }
            # what the lab has loaded meanwhile is not loaded twice
            sys.modules.update(lab)
            self.assertEqual(status, 2, output)
            self.assertEqual(output.count("\n"), 1, output)
            for name in COMMANDS[command].needs:
                self.assertIn(missing.PACKAGES[name], output)

    def test_keys_of_any_characters(self) -> None:
        match_fixture = fixture(ring(4), 2)._replace(keys=[FACE, "k1"])
        text = toml_of(match_fixture.keys)
        self.assertNotIn("\\ud83d\\ude00", text)
        match = play_fixture(
            match_fixture,
            RING,
            0,
            engine=lambda fixture_given: Program(fixture_given, program()),
        )
        self.assertEqual(match.verdict().outcome, "solved")
        schedule = schedule_of(match_fixture, [RING] * 2, "a test", match.choices)
        self.assertEqual(
            run_call(keep, self.folder, schedule, program()).status.replay, match.replay
        )
        self.assertEqual(
            run_call(main, ["replay", str(self.folder), "--program", program()]).status,
            0,
        )
        self.assertEqual(
            read_schedule(self.folder / "schedule.txt").fixture, match_fixture
        )
        os.chdir(self.folder)
        self.assertEqual(
            read_tournament("tournament.toml").fixtures[0].keys, match_fixture.keys
        )

    def test_matches_are_played_in_threads(self) -> None:
        match_fixture = [fixture(ring(8), hole) for hole in range(1, 8)]
        with concurrent.futures.ThreadPoolExecutor(3) as pool:
            there = list(
                pool.map(
                    lambda fixture_given: play_fixture(fixture_given, RING, 1).replay,
                    match_fixture,
                )
            )
        self.assertEqual(
            there, [play_fixture(it, RING, 1).replay for it in match_fixture]
        )


class Processes(InFolder):
    def start(
        self, *words: str, errors: int = subprocess.DEVNULL
    ) -> "subprocess.Popen[str]":
        heeds = functools.partial(signal.signal, signal.SIGINT, signal.SIG_DFL)
        return subprocess.Popen(
            [sys.executable, "-m", "arena_lab", *words],
            cwd=TOP,
            stdout=subprocess.PIPE,
            text=True,
            stderr=errors,
            start_new_session=True,
            preexec_fn=heeds,
        )

    def test_workers_end_with_a_command_that_is_killed(self) -> None:
        file = self.folder / "sweep.toml"
        out = self.folder / "out"
        file.write_text(
            'title = "T"\nnetworks = ["ring:16"]\nseeds = 9000\n[[team]]\nname = "a"\n'
            f'agent = "{RING.words}"\n'
        )
        with self.start(
            "sweep", str(file), "--out", str(out), "--workers", "2", *MODEL
        ) as process:
            until = time.monotonic() + 60
            while time.monotonic() < until and len(session_of(process.pid)) < 3:
                time.sleep(0.05)
            self.assertGreaterEqual(len(session_of(process.pid)), 3)
            process.kill()
            while time.monotonic() < until and session_of(process.pid) - {process.pid}:
                time.sleep(0.05)
            self.assertEqual(session_of(process.pid) - {process.pid}, set())

    def test_who_interrupts_a_run_gets_what_was_played_and_the_status_130(self) -> None:
        words = [
            "run",
            "--network",
            "ring:32",
            "--runs",
            "100000",
            "--agent",
            RING.words,
            "--json",
            *MODEL,
        ]
        with self.start(*words, errors=subprocess.PIPE) as process:
            # however slow the machine is, a match was played
            self.assertIn("solved", process.stdout.readline())
            process.send_signal(signal.SIGINT)
            _, output = process.communicate(timeout=60)
        self.assertEqual(process.returncode, 130, output)
        self.assertRegex(
            output,
            r"interrupted; this was played:\n\d+ schedules?: solved \d+; failed 0",
        )


def session_of(leader: int) -> Set[int]:
    """The processes that a command has started and that run."""
    results = set()
    for process in process_numbers():
        with contextlib.suppress(ProcessLookupError):
            if os.getsid(process) == leader and is_alive(process):
                results.add(process)
    return results
