"""Where `arena-lab try` begins, and where it does not."""
import argparse
import importlib
import pathlib
import unittest
from unittest import mock

from arena_lab.hall.hall_files import HallError, read_hall
from arena_lab.hall import place
from arena_lab.sandbox import sandboxes

# its name is a word of Python
trying = importlib.import_module("arena_lab.commands.try")


class Try(unittest.TestCase):
    def test_without_a_sandbox_it_begins_only_if_it_is_told_to(self) -> None:
        """And says what that gives away, before anything is made."""
        words = argparse.Namespace(
            allow_weak_sandbox=False, folder=pathlib.Path("/no/such/folder")
        )
        weak = mock.patch.object(sandboxes, "weakness", return_value="none here")
        packages = mock.patch.object(trying, "check")
        with weak, packages:
            with self.assertRaisesRegex(
                HallError, "none here. Or say --allow-weak-sandbox: .* all your files"
            ):
                trying.run(words)
            trying.check_sandbox(True)
        with mock.patch.object(sandboxes, "weakness", return_value=""):
            trying.check_sandbox(False)

    def test_nobody_is_a_guest_there(self) -> None:
        hall = read_hall(pathlib.Path(place.__file__).parent / trying.COURSE)
        assert hall.editor is not None
        self.assertEqual(hall.editor.guests, 0)
