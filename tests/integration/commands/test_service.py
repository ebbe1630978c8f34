"""The service in examples/arena.service ends a contest by `close`: its commands are run
as systemd would run them."""
import os
import re
import subprocess
from typing import Sequence, Set

from arena_lab.rules.engines import TOP
from arena_lab.rules.networks import ring
from arena_lab.support.ports import free_port
from tests import needs
from tests.support.matches import program
from tests.support.output import InTemporary
from tests.support.tournaments import match, write_cup

PATH = TOP / "examples" / "arena.service"
UNIT = PATH.read_text(encoding="utf-8")
# how exposed systemd may find the service, of 100
MOST_EXPOSED = 20
# connections of all agents that a tournament may have, and as many of strangers
MANY_FILES = 2 * 1024


def command(name: str) -> str:
    """What systemd gives the shell: it takes `sh -c '..'` apart."""
    match = re.search(rf"^{name}=/bin/sh -c '(.*)'$", UNIT, re.MULTILINE)
    assert match is not None
    return match[1]


def analyze(*words: object) -> "subprocess.CompletedProcess[str]":
    """What systemd says."""
    return subprocess.run(
        ["systemd-analyze", "--no-pager", *map(str, words)],
        text=True,
        capture_output=True,
    )


def calls_of(names: Sequence[str]) -> Set[str]:
    """The system calls in these sets of systemd and in those that they name."""
    calls: Set[str] = set()
    for name in names:
        lines = analyze("syscall-filter", name).stdout.splitlines()[1:]
        words = {line.strip() for line in lines if not line.strip().startswith("#")}
        calls |= words | calls_of(sorted(word for word in words if word[0] == "@"))
    return calls


def allowed_calls() -> Set[str]:
    """The system calls that the service may make."""
    calls: Set[str] = set()
    for words in re.findall("^SystemCallFilter=(.*)$", UNIT, re.MULTILINE):
        if words.startswith("~"):
            # what every program needs stays allowed
            calls -= calls_of(words[1:].split()) - calls_of(["@default"])
        else:
            calls |= calls_of(words.split())
    return calls


class TestService(InTemporary):
    def test_a_contest_that_is_stopped_has_its_results(self) -> None:
        self.stop_contest()

    @needs("strace", "strace")
    @needs("systemd-analyze", "systemd")
    def test_a_contest_makes_no_call_that_the_service_refuses(self) -> None:
        trace = self.folder / "calls"
        self.stop_contest("strace", "-f", "-qq", "-A", "-o", str(trace))
        calls = set(re.findall(r"^\d+ +(\w+)\(", trace.read_text(), re.MULTILINE))
        self.assertIn("accept4", calls)
        self.assertEqual(calls - allowed_calls(), set())

    @needs("systemd-analyze", "systemd")
    def test_systemd_finds_it_little_exposed(self) -> None:
        result = analyze(
            "security", "--offline=true", f"--threshold={MOST_EXPOSED}", PATH
        )
        self.assertEqual(result.returncode, 0, result.stdout[-500:] + result.stderr)

    def test_it_may_open_as_many_files_as_a_contest_has_connections(self) -> None:
        limit = re.search(r"^LimitNOFILE=(\d+)$", UNIT, re.MULTILINE)
        assert limit is not None
        self.assertGreater(int(limit[1]), MANY_FILES)

    def stop_contest(self, *tracer: str) -> None:
        """Stops a contest, whose commands may be traced, and looks at what is left."""
        folder = self.folder
        write_cup(folder, [match("red", ring(4), [2], agents=1)])
        (folder / "arena").symlink_to(program())
        how = {
            "cwd": folder,
            "env": {**os.environ, "PATH": f"{folder}:{os.environ['PATH']}"},
        }
        shell = [*tracer, "sh", "-c"]
        subprocess.run([*shell, command("ExecStartPre")], check=True, **how)
        words = f"{command('ExecStart')} --port {free_port()}".replace(
            "<> operator --port", "--port"
        )
        server = subprocess.Popen(
            [*shell, f"{words} <> operator"],
            stdout=subprocess.PIPE,
            text=True,
            stderr=subprocess.DEVNULL,
            **how,
        )
        try:
            assert server.stdout is not None
            self.assertTrue(server.stdout.readline().startswith("listening "))
            stop = command("ExecStop").replace("$MAINPID", str(server.pid))
            process = subprocess.Popen([*shell, stop], **how)
            self.assertIn("silent", server.stdout.read())
            self.assertEqual(0, server.wait(30))
            self.assertEqual(0, process.wait(30))
        finally:
            server.kill()
            server.communicate()
        self.assertTrue((folder / "cup0.jsonl").exists())
