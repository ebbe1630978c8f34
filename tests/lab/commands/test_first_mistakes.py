"""What newcomers mistype first: each mistake is answered by a sentence that says what to
change, and by no traceback."""
import os
import pathlib
import shutil
import subprocess
import sys
from typing import List

from arena_lab.__main__ import main
from arena_lab.play.agent_files import AGENTS
from arena_lab.rules.engines import TOP
from tests.support.output import InTemporary, run_call, write

MODEL = ["--engine", "model"]
RUN = ["run", "--network", "ring:5", *MODEL]
OUTSIDE = "{host} {port} {key} {nodes}"

# words of the lab in a folder with the kit in Python -> what the answer says
MISTAKES = [
    ("rnu --network ring:8", "there is no rnu: did you mean run? There are new, try"),
    ("new pyhton kit", "there is no pyhton: did you mean python? There are python,"),
    ("run --engine modell", "there is no modell: did you mean model?"),
    ("network ring:8 --out nowhere/x.toml", "there is no folder nowhere: make it"),
    ("network ring:8 --out careful.py/x", "a part of its name is a file; name another"),
    ("network ring:8 --out .", ".: there is such a file; remove it, or name another"),
    ("network ring:8 --out /proc/x.toml", "/proc/x.toml: "),
    ("tournament --team red --network ring:8 --out careful.py", "name another place"),
    ("check careful.py {host} {port}", "put all words of an agent in quotes"),
]
# an agent of the lab -> what the answer says
AGENTS_INSIDE = [
    ("utf16.py {nodes}", "utf16.py: it is no text in UTF-8: save it"),
    ("latin.py {nodes}", "latin.py: it is no text in UTF-8: save it"),
    ("python3 careful.py {nodes}", "an agent inside the lab is a file in Python"),
    ("carefull.py {nodes}", "carefull.py: there is no such file"),
]
# a program -> what the answer says
PROGRAMS = [
    (f"careful.py {OUTSIDE}", "is no program: begin with `python3 careful.py`"),
    (f"python2x careful.py {OUTSIDE}", "there is no program python2x: install it"),
    (f"python3 utf16.py {OUTSIDE}", "utf16.py, line 1: it is no text in UTF-8"),
    (f"python3 latin.py {OUTSIDE}", "latin.py, line 11: it is no text in UTF-8"),
]
# words of the kit's program -> what it prints
KIT = [
    ("127.0.0.1 1 k0 8", "127.0.0.1 port 1: "),
    ("127.0.0.1 port k0 8", "python3 careful.py HOST PORT KEY NODES"),
]
OLD = """#!/bin/sh
[ "$1" = -V ] && echo Python 3.9.2 && exit
exit 2
"""


class Mistakes(InTemporary):
    def setUp(self) -> None:
        super().setUp()
        self.addCleanup(os.chdir, os.getcwd())
        os.chdir(self.folder)
        for path in (AGENTS / "python" / "careful.py", AGENTS / "client.py"):
            shutil.copy(path, self.folder)
        text = pathlib.Path("careful.py").read_text(encoding="utf-8")
        # a byte order mark does no harm
        pathlib.Path("bom.py").write_text(text, encoding="utf-8-sig")
        pathlib.Path("utf16.py").write_text(text, encoding="utf-16")
        umlaut = text.replace("by time.", "by time f\xfcr immer.")
        pathlib.Path("latin.py").write_text(umlaut, encoding="latin-1")

    def says(self, words: List[str], sentence: str) -> None:
        """Checks that a command line fails and says this, and nothing of Python's."""
        result = run_call(main, words)
        output = result.output + result.errors
        self.assertNotEqual(result.status, 0, output)
        self.assertIn(sentence, output)
        self.assertNotIn("Traceback", output)

    def test_words_of_the_lab(self) -> None:
        for line, sentence in MISTAKES:
            with self.subTest(line):
                self.says(line.split(), sentence)

    def test_agents(self) -> None:
        for agent, sentence in AGENTS_INSIDE:
            with self.subTest(agent):
                self.says([*RUN, "--agent", agent], sentence)
        for command, sentence in PROGRAMS:
            with self.subTest(command):
                self.says([*RUN, "--command", command], sentence)
        result = run_call(main, [*RUN, "--agent", "bom.py {nodes}"])
        self.assertEqual(result.status, 0, result.errors)

    def test_words_of_the_kit(self) -> None:
        for line, sentence in KIT:
            with self.subTest(line):
                words = [sys.executable, "careful.py", *line.split()]
                result = subprocess.run(words, stderr=subprocess.PIPE, text=True)
                self.assertNotEqual(result.returncode, 0)
                self.assertIn(sentence, result.stderr)
                self.assertNotIn("Traceback", result.stderr)

    def test_a_python_that_is_too_old(self) -> None:
        """The script `arena-lab` passes over old Pythons, and asks for a newer one if
        the path has none."""
        write(self.folder / "bin" / "python3", OLD, 0o755)
        script = (TOP / "arena-lab").read_text().replace("/usr/bin/python3", "/none")
        write(self.folder / "arena-lab", script, 0o755)
        for name in ("sh", "readlink", "dirname"):
            os.symlink(str(shutil.which(name)), self.folder / "bin" / name)
        path = {"PATH": str(self.folder / "bin")}
        result = subprocess.run(
            ["./arena-lab"], env=path, stderr=subprocess.PIPE, text=True
        )
        self.assertEqual(result.returncode, 2)
        self.assertIn("it needs Python 3.11 or newer, and", result.stderr)
        self.assertIn("python3 is Python 3.9.2: install that", result.stderr)
