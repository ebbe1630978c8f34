"""A graded course is written for gradebooks, and the files of
examples/course/autograder grade one team as far as they run here: what installs the
package is left out."""
import csv
import json
import os
import pathlib
import shutil
import subprocess
import sys
import xml.etree.ElementTree as ElementTree
from typing import Any, Dict, List

import yaml

from arena_lab.__main__ import main
from arena_lab.course.export import KINDS
from arena_lab.rules.engines import TOP
from tests.support.matches import AGENTS, InFolder
from tests.support.output import run_call

AUTOGRADER = TOP / "examples" / "course" / "autograder"
COURSE = (
    'title = "T"\nnetworks = ["ring:4"]\nholes = [2]\n[points]\nnetwork = 7\n[[team]]\nname = "a"\n'
    f'files = ["{AGENTS}/client.py", "{AGENTS}/ring.py"]\n'
    'command = "python3 ring.py {host} {port} {key} {nodes}"\n'
    '[[team]]\nname = "b"\nfiles = ["dies.py"]\ncommand = "python3 dies.py {port} {key}"\n'
)
# stands for the command that a release installs
COMMAND = f'#!/bin/sh\nPYTHONPATH={TOP} exec {sys.executable} -m arena_lab "$@" --engine model --workers 2\n'


class Exports(InFolder):
    def setUp(self) -> None:
        super().setUp()
        self.out = self.folder / "out"

    def grade(self, *extra: str) -> str:
        (self.folder / "dies.py").write_text("raise SystemExit('no map')\n")
        course = self.folder / "course.toml"
        course.write_text(COURSE)
        status, output, errors = run_call(
            main,
            ["grade", str(course), "--out", str(self.out), "--engine", "model", *extra],
        )
        return output if status == 0 else errors

    def test_all_kinds_at_once(self) -> None:
        (self.folder / "students.csv").write_text("team,idnumber\nb,12\na,007\n")
        output = self.grade("--export", *KINDS)
        self.assertEqual(output.count("for a gradebook: "), 5)
        scores = {
            team: json.loads((self.out / f"gradescope-{team}.json").read_text())[
                "score"
            ]
            for team in "ab"
        }
        self.assertEqual(scores, {"a": 7, "b": 0})
        with (self.out / "moodle.csv").open(encoding="utf-8", newline="") as file:
            self.assertEqual(
                [row["T (Real)"] for row in csv.DictReader(file)], ["0", "7"]
            )
        root = ElementTree.parse(self.out / "junit.xml").getroot()
        self.assertIn("no map", root.findall(".//failure")[0].text or "")
        # a team's page leads to all that its programs wrote to standard error
        number = next(path.name for path in (self.out / "failed").iterdir())
        self.assertIn(
            f'href="failed/{number}/errors0.txt"',
            (self.out / "team-b.html").read_text(),
        )
        self.assertEqual(
            (self.out / "failed" / number / "errors0.txt").read_text(), "no map\n"
        )
        self.assertEqual(
            (self.out / "points.csv").read_text(),
            "team,points,most,ring:4\na,7,7,7\nb,0,7,0\n",
        )

    def test_students_are_read_before_anything_is_played(self) -> None:
        self.assertIn(
            "students.csv: there is no such file", self.grade("--export", "moodle")
        )
        self.assertFalse(self.out.exists())


class Autograder(InFolder):
    """The files for Gradescope, GitHub and GitLab."""

    def setUp(self) -> None:
        super().setUp()
        self.place = self.folder / "place"
        for name in ("bin", "source", "submission", "results"):
            (self.place / name).mkdir(parents=True)
        command = self.place / "bin" / "arena-lab"
        command.write_text(COMMAND)
        command.chmod(0o755)
        shutil.copy(AUTOGRADER / "course.toml", self.place / "source")
        shutil.copy(AGENTS / "client.py", self.place / "submission")
        shutil.copy(AGENTS / "ring.py", self.place / "submission" / "agent.py")

    def run_script(
        self, script: str, where: pathlib.Path
    ) -> "subprocess.CompletedProcess[str]":
        variables = {
            **os.environ,
            "PATH": f"{self.place / 'bin'}:{os.environ['PATH']}",
            "AUTOGRADER": str(self.place),
        }
        return subprocess.run(
            ["bash", "-e", "-o", "pipefail", "-c", script],
            cwd=where,
            env=variables,
            text=True,
            capture_output=True,
        )

    def results(self) -> Dict[str, Any]:
        result = self.run_script(f"exec '{AUTOGRADER}/run_autograder'", self.folder)
        self.assertEqual(result.returncode, 0, result.stderr)
        report: Dict[str, Any] = json.loads(
            (self.place / "results" / "results.json").read_text()
        )
        return report

    def test_gradescope(self) -> None:
        result = self.results()
        self.assertEqual(len(result["tests"]), 8)
        self.assertTrue(0 < result["score"] <= 20)
        self.assertEqual({test["status"] for test in result["tests"]}, {"passed"})
        # a program that cannot be loaded fails its matches, and the autograder still
        # writes results
        (self.place / "submission" / "agent.py").write_text("import nosuchmodule\n")
        result = self.results()
        self.assertEqual(result["score"], 0)
        self.assertIn("nosuchmodule", result["tests"][0]["output"])
        (self.place / "source" / "course.toml").write_text("title = 1\n")
        self.assertIn("no fault of yours", self.results()["output"])

    def check_workflow(
        self, steps: List[str], where: pathlib.Path, out: pathlib.Path
    ) -> None:
        for step in steps:
            result = self.run_script(step, where)
            self.assertEqual(
                result.returncode, 0, f"{step}\n{result.stdout}{result.stderr}"
            )
        self.assertEqual(
            ElementTree.parse(out / "junit.xml").getroot()[0].attrib["failures"], "0"
        )
        self.assertIn("team,", (out / "points.csv").read_text())

    def test_github(self) -> None:
        flow = yaml.safe_load((AUTOGRADER / "github.yml").read_text())
        steps = flow["jobs"]["grade"]["steps"]
        self.assertEqual(
            [
                step.get("name", step.get("uses", "")).partition("@")[0]
                for step in steps
            ],
            [
                "actions/checkout",
                "actions/setup-python",
                "install",
                "grade",
                "actions/upload-artifact",
            ],
        )
        # YAML 1.1 reads the key `on` as true
        self.assertEqual(flow[True], ["push", "workflow_dispatch"])
        shutil.copy(AUTOGRADER / "course.toml", self.place / "submission")
        self.check_workflow([steps[3]["run"]], self.place, self.place / "out")
        (self.place / "submission" / "agent.py").write_text("")
        shutil.rmtree(self.place / "out")
        self.assertNotEqual(self.run_script(steps[3]["run"], self.place).returncode, 0)

    def test_gitlab(self) -> None:
        job = yaml.safe_load((AUTOGRADER / "gitlab.yml").read_text())["grade"]
        install, *steps = job["script"]
        self.assertTrue(install.startswith("pip install "))
        self.assertEqual(job["artifacts"]["reports"], {"junit": "out/junit.xml"})
        where = self.place / "submission"
        shutil.copy(AUTOGRADER / "course.toml", where)
        self.check_workflow(steps, where, where / "out")
