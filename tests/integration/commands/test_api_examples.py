"""The examples of the functions that Python programs call."""
import doctest
import os
import unittest

from arena_lab import api
from arena_lab.support.built import TOP


class Examples(unittest.TestCase):
    def test_each_function_has_an_example_that_runs(self) -> None:
        self.addCleanup(os.chdir, os.getcwd())
        os.chdir(TOP)
        finder = doctest.DocTestFinder(exclude_empty=False)
        results = {it.name.rpartition(".")[2]: it for it in finder.find(api)}
        functions = [name for name in api.__all__ if callable(getattr(api, name))]
        public = [name for name in functions if name[0].islower()]
        self.assertTrue(public)
        runner = doctest.DocTestRunner()
        for name in public:
            with self.subTest(name):
                self.assertTrue(results[name].examples)
                self.assertEqual(runner.run(results[name]).failed, 0)
