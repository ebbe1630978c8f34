"""A machine whose /dev/shm starts no program, as containers and guides to hardening have
it: a copy of the system is made elsewhere in memory, or the hall says at its start that
there is none. Namespaces of their own have these file systems."""
import os
import pathlib
import subprocess
import sys
import tempfile
import unittest
from typing import Any

from arena_lab.hall.hall_files import HallError
from arena_lab.rules.engines import TOP
from arena_lab.sandbox import sandboxes
from tests.support.matches import program

MOUNTS = "mount -o remount,noexec /dev/shm && mount -t tmpfs -o size={size}M tmpfs /tmp && exec "
TRYING = """from arena_lab.sandbox import sandboxes
from arena_lab.sandbox.sandboxes import Isolation, SandboxOptions
with sandboxes.furnish(SandboxOptions(Isolation.ALL), ["python3"], []) as options:
    sandboxes.try_out(options)
    print(options.root)
"""
SENTENCE = "no program starts from /dev/shm, which is mounted noexec: `mount -o remount"
# MB of /tmp in which a copy has room, and no room
ROOM = 1000
NO_ROOM = 1


def can_mount() -> bool:
    words = ["unshare", "--mount", "sh", "-c", MOUNTS.format(size=NO_ROOM) + "true"]
    return subprocess.run(words, capture_output=True).returncode == 0


@unittest.skipIf(sandboxes.weakness(), "no walls here")
@unittest.skipUnless(can_mount(), "this user mounts no file systems")
class MemoryThatStartsNothing(unittest.TestCase):
    def run_with(self, size: int, *words: object) -> Any:
        """Runs a command where /dev/shm starts no program and /tmp has this size."""
        shell = ["sh", "-c", f'{MOUNTS.format(size=size)} "$@"', "sh"]
        return subprocess.run(
            ["unshare", "--mount", *shell, *map(str, words)],
            cwd=TOP,
            capture_output=True,
            text=True,
            env={**os.environ, "XDG_RUNTIME_DIR": "/dev/shm"},
        )

    def test_programs_start_all_the_same(self) -> None:
        result = self.run_with(ROOM, sys.executable, "-c", TRYING)
        self.assertRegex(result.stdout, "^/tmp/lab-system-", result.stderr)
        result = self.run_with(NO_ROOM, sys.executable, "-c", TRYING)
        self.assertEqual((result.stdout, result.returncode), ("\n", 0), result.stderr)
        self.assertIn(SENTENCE, result.stderr)

    def test_a_hall_says_so_at_its_start(self) -> None:
        """And does not start if the course names packages, which nobody would see."""
        # which another /tmp does not hide
        folder = self.enterContext(tempfile.TemporaryDirectory(dir="/var/tmp"))
        course = pathlib.Path(folder) / "course.toml"
        text = (TOP / "arena_lab" / "hall" / "new.toml").read_text(encoding="utf-8")
        head = "[hand_ins]\n"
        self.assertIn(head, text)
        for packages, status in (("", 0), ('packages = ["make"]\n', HallError.status)):
            course.write_text(text.replace(head, head + packages), encoding="utf-8")
            result = self.run_with(
                NO_ROOM,
                *(sys.executable, "-m", "arena_lab", "hall", course),
                *("--program", program(), "--workers", 0, "--seconds", 0),
            )
            self.assertEqual(result.returncode, status, result.stderr)
            self.assertIn(SENTENCE, result.stderr)
