"""Copies of the system stay as long as they are in use, whoever looks for those that
killed commands have left."""
import pathlib
import signal
import subprocess
import sys
import tempfile
import unittest
import unittest.mock

from arena_lab.sandbox import system_copy
from tests import TOP, needs

# makes a copy of one file in a folder, prints its path, and waits
COPYING = """import sys
from arena_lab.sandbox import system_copy
system_copy.place_for = lambda size: sys.argv[1]
system_copy.files_of = lambda packages: ["/etc", "/etc/passwd"]
system_copy.closure = lambda names: []
system_copy.owners = lambda commands, tools: []
with system_copy.copy_system([], []) as folder:
    print(folder, flush=True)
    sys.stdin.read()
"""
REMOVING = """import sys
from arena_lab.sandbox import system_copy
system_copy.PLACES = (sys.argv[1],)
system_copy.remove_left()
"""
OTHER_NAMESPACE = ("bwrap", "--unshare-pid", "--bind", "/", "/", "--proc", "/proc")


class Copies(unittest.TestCase):
    def setUp(self) -> None:
        self.place = pathlib.Path(self.enterContext(tempfile.TemporaryDirectory()))
        self.enterContext(
            unittest.mock.patch.object(system_copy, "PLACES", (str(self.place),))
        )
        self.process = subprocess.Popen(
            [sys.executable, "-c", COPYING, str(self.place)],
            cwd=TOP,
            stdin=subprocess.PIPE,
            stdout=subprocess.PIPE,
            text=True,
        )
        self.addCleanup(self.process.communicate)
        self.addCleanup(self.process.kill)
        assert self.process.stdout is not None
        self.copy = pathlib.Path(self.process.stdout.readline().strip())

    @needs("bwrap", "bubblewrap")
    def test_a_lab_in_another_namespace_leaves_a_copy_in_use(self) -> None:
        words = [sys.executable, "-c", REMOVING, str(self.place)]
        trial = subprocess.run([*OTHER_NAMESPACE, "true"], capture_output=True)
        if trial.returncode != 0:
            self.skipTest("this machine allows no namespaces")
        subprocess.run([*OTHER_NAMESPACE, *words], cwd=TOP, check=True)
        self.assertTrue((self.copy / "etc" / "passwd").exists())
        self.process.communicate()
        self.assertEqual(list(self.place.iterdir()), [])

    def test_a_copy_of_a_killed_command_is_removed(self) -> None:
        system_copy.remove_left()
        self.assertTrue((self.copy / "etc" / "passwd").exists())
        self.process.send_signal(signal.SIGKILL)
        self.process.wait()
        self.assertTrue(self.copy.exists())
        system_copy.remove_left()
        self.assertEqual(list(self.place.iterdir()), [])

    def test_a_folder_that_is_removed_before_it_is_locked_is_made_anew(self) -> None:
        """Another lab may find a new folder before its lock is taken."""
        lock_folder = system_copy.lock_folder
        paths = []

        def lock_late(folder: str, operation: int) -> int:
            paths.append(folder)
            if len(paths) == 1:
                system_copy.remove_left()
            return lock_folder(folder, operation)

        with unittest.mock.patch.object(system_copy, "lock_folder", lock_late):
            with system_copy.locked_folder(str(self.place)) as folder:
                self.assertTrue(pathlib.Path(folder).is_dir())
        self.assertIn(folder, paths[1:])
        self.assertNotEqual(folder, paths[0])
