"""A package that is missing is named with the command that installs it."""
import importlib
import unittest
from unittest import mock

from arena_lab.support import missing as lab_missing
from arena_lab.support.missing import MissingPackageError, require


class Packages(unittest.TestCase):
    def test_a_package_that_is_missing_is_named(self) -> None:
        for name, package in (
            ("greenlet", "python3-greenlet"),
            ("hypothesis.strategies", "python3-hypothesis"),
        ):
            missing = ModuleNotFoundError(f"No module named {name}")
            with mock.patch.object(
                importlib, "import_module", side_effect=missing
            ), mock.patch.object(lab_missing, "in_environment", return_value=False):
                with self.assertRaisesRegex(
                    MissingPackageError, f"apt-get install {package}`"
                ):
                    require(name)
