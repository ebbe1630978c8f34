"""./arena-lab runs from any folder, leaves PYTHONPATH to the agents as it is, and takes
the Python that has the lab's packages: an active environment's, or else Debian's."""
import os
import pathlib
import subprocess

from tests.support.output import InTemporary, write

TOP = pathlib.Path(__file__).resolve().parent.parent
# stands for the Python of an environment: says whether it has packages, or which words
# it was given
PYTHON = """#!/bin/sh
case $2 in *find_spec*) exit {status} ;; esac
shift 2
echo "{name}: $* path=$PYTHONPATH"
"""


class Command(InTemporary):
    def environment(self, name: str, has_packages: bool) -> str:
        text = PYTHON.format(name=name, status=0 if has_packages else 1)
        write(self.folder / name / "bin" / "python3", text, 0o755)
        return str(self.folder / name)

    def output(self, *words: str, **variables: str) -> str:
        record = {
            name: text
            for name, text in os.environ.items()
            if name not in ("VIRTUAL_ENV", "CONDA_PREFIX")
        }
        return subprocess.run(
            [TOP / "arena-lab", *words],
            cwd=self.folder,
            env={**record, **variables},
            check=True,
            stdout=subprocess.PIPE,
            text=True,
        ).stdout

    def test_an_active_environment_with_the_packages_is_taken(self) -> None:
        for variable in ("VIRTUAL_ENV", "CONDA_PREFIX"):
            position = self.environment(f"mine-{variable}", True)
            self.assertEqual(
                self.output(
                    "run", "two words", PYTHONPATH="mine", **{variable: position}
                ),
                f"mine-{variable}: {TOP} run two words path=mine\n",
            )

    def test_another_environment_gives_way_to_debians_python(self) -> None:
        bare = self.environment("bare", False)
        whole = subprocess.run(
            ["/usr/bin/python3", "-c", "import greenlet, jinja2, tqdm"],
            stderr=subprocess.DEVNULL,
        )
        output = self.output("--help", VIRTUAL_ENV=bare)
        if whole.returncode == 0:
            self.assertIn("usage: ./arena-lab", output)
        else:
            self.assertNotIn("usage: lab", output)
