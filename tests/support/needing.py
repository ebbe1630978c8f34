"""What tests need that a Python may lack: they are skipped then, and it is said why."""
import unittest
from typing import Any, Callable

from arena_lab.support.missing import PACKAGES, missing_of


def needs(*modules: str) -> Callable[[Any], Any]:
    """Skips a test or a class of tests if one of these modules is missing."""
    absent = missing_of(modules)
    return unittest.skipIf(
        absent, f"Debian's {', '.join(PACKAGES[it] for it in absent)} is not installed"
    )
