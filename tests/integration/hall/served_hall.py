"""A hall that is served while the tests of a file run."""
import unittest
from typing import Dict, List

from tests.support import halls
from tests.support.halls import ServedHall

HALL: List[ServedHall] = []


def setUpModule() -> None:
    HALL.append(unittest.enterModuleContext(halls.serve_hall()))


class Halls(halls.Playing):
    """Tests of one hall, which is served meanwhile."""

    hall: ServedHall
    tokens: Dict[str, str]

    def setUp(self) -> None:
        self.hall = HALL[-1]
        self.tokens = HALL[-1].tokens()
