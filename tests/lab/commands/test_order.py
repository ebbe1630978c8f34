"""The lab goes through sets of texts in one order, from start to start."""
import subprocess
import sys
import unittest

from arena_lab.play.parallel import PLAY
from arena_lab.support.built import TOP

# says in which order a process goes through a set of texts, once the lab has given it
# one
ORDER = (
    "import os, arena_lab; arena_lab.with_one_order(); print(os.environ['PYTHONHASHSEED'], "
    "list({'north', 'east', 'south', 'west', 'up', 'down'}))"
)


class Order(unittest.TestCase):
    def test_texts_have_one_order(self) -> None:
        output = {
            subprocess.run(
                [sys.executable, "-c", ORDER],
                cwd=TOP,
                capture_output=True,
                text=True,
                check=True,
                env={"PYTHONHASHSEED": seed, "PATH": ""},
            ).stdout
            for seed in ("1", "2", "random", "0")
        }
        self.assertEqual(len(output), 1, output)
        self.assertTrue(output.pop().startswith("0 ["))

    def test_workers_of_a_cluster_have_it_too(self) -> None:
        self.assertIn(
            "arena_lab.with_one_order(); from arena_lab.play.parallel import serve",
            PLAY,
        )
