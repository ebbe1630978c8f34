"""Each agent inside the lab has a `random` of its own, and leaves nothing behind."""
import gc
import random
import sys
import unittest
import weakref
from unittest import mock

from arena_lab.play import own_modules
from arena_lab.play.own_modules import OwnModules, random_from


class Randoms(unittest.TestCase):
    def test_it_draws_as_a_generator_of_its_seed(self) -> None:
        made = random_from(3)
        rng = random.Random(3)
        for _ in range(3):
            self.assertEqual(
                [
                    made.random(),
                    made.randint(1, 6),
                    made.gauss(0, 1),
                    made.sample(range(9), 4),
                ],
                [
                    rng.random(),
                    rng.randint(1, 6),
                    rng.gauss(0, 1),
                    rng.sample(range(9), 4),
                ],
            )
        self.assertEqual(made.getstate(), rng.getstate())

    def test_its_draws_and_seeds_change_no_other(self) -> None:
        before = random.getstate()
        second = random_from(3)
        state = second.getstate()
        made = random_from(3)
        made.seed(7)
        made.random()
        self.assertEqual(second.getstate(), state)
        self.assertEqual(random.getstate(), before)

    def test_it_is_freed_once_nobody_has_it(self) -> None:
        made = random_from(3)
        held_links = weakref.ref(made._inst)
        del made
        gc.collect()
        self.assertIsNone(held_links())


class Paths(unittest.TestCase):
    def test_imports_look_beside_the_agent_first_wherever_else_they_look(self) -> None:
        with mock.patch.object(sys, "path", ["/other"]), mock.patch.object(
            own_modules, "FOLDERS", set()
        ):
            modules = OwnModules(0)
            for number in range(2):
                with modules:
                    if not number:
                        modules.begin(["/agent"])
                    self.assertEqual(sys.path, ["/agent", "/other"])
                self.assertEqual(sys.path, ["/other"])
            sys.path.append("/more")
            with modules:
                self.assertEqual(sys.path, ["/agent", "/other", "/more"])
            # the folder of another agent
            with OwnModules(1) as rest:
                rest.begin(["/more"])
            with modules:
                self.assertEqual(sys.path, ["/agent", "/other"])
            self.assertEqual(sys.path, ["/other", "/more"])
