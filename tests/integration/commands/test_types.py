"""The lab's types are right, by mypy."""
import shutil
import subprocess
import unittest

from arena_lab.support.built import TOP

MYPY = "/usr/bin/mypy"


class Types(unittest.TestCase):
    @unittest.skipUnless(shutil.which(MYPY), "mypy is not installed")
    def test_types_are_right(self) -> None:
        result = subprocess.run([MYPY], cwd=TOP, capture_output=True, text=True)
        self.assertEqual(result.returncode, 0, result.stdout + result.stderr)
