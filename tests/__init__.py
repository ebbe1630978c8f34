"""Tests. `python3 -m unittest` at the top of the repository runs those that need
nothing but Python; README.md has the others."""
import pathlib
import shutil
import unittest
from typing import Any, Callable

TOP = pathlib.Path(__file__).resolve().parent.parent


def needs(command: str, package: str) -> Callable[[Any], Any]:
    """Skips a test or a class of tests if a command of one of Debian's packages is
    missing."""
    return unittest.skipUnless(
        shutil.which(command), f"Debian's {package} is not installed"
    )
