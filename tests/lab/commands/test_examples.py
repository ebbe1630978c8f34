"""Examples that were copied run where they stand, by the lab that copied them."""
import json
import os
import subprocess
import sys

from arena_lab.__main__ import main
from arena_lab.rules.engines import TOP
from tests.support.needing import needs
from tests.support.output import InTemporary, run_call


@needs("greenlet", "jinja2", "networkx", "numpy", "scipy", "tqdm")
class Copies(InTemporary):
    def setUp(self) -> None:
        super().setUp()
        self.folder /= "mine"
        self.assertEqual(run_call(main, ["examples", str(self.folder)]).status, 0)

    def output(self, *words: str) -> str:
        """What a Python prints that knows no lab but the one of the copies."""
        variables = {
            name: value for name, value in os.environ.items() if name != "PYTHONPATH"
        }
        result = subprocess.run(
            [sys.executable, *words],
            cwd=self.folder / "examples",
            env=variables,
            text=True,
            stdout=subprocess.PIPE,
            stderr=subprocess.STDOUT,
            timeout=120,
        )
        self.assertEqual(result.returncode, 0, result.stdout)
        return result.stdout

    def test_the_first_command_and_the_first_cell_of_the_notebook(self) -> None:
        self.assertIn("--watch", self.output("contest.py", "--help"))
        cells = json.loads(
            (TOP / "examples" / "notebook.ipynb").read_text(encoding="utf-8")
        )["cells"]
        code = next(
            "".join(cell["source"]) for cell in cells if cell["cell_type"] == "code"
        )
        self.assertIn(" solved ", self.output("-c", code))

    def test_the_search_of_the_kit_is_what_the_lab_calls(self) -> None:
        agent = str(self.folder / "examples" / "agents" / "python" / "careful.py")
        output = run_call(
            main,
            [
                "run",
                "--network",
                "ring:6",
                "--agent",
                f"{agent} {{nodes}}",
                "--engine",
                "model",
                "--runs",
                "5",
            ],
        ).output
        self.assertIn("5 schedules: solved 5; failed 0", output)
