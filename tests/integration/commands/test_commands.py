"""Each command of `./arena` and `./arena-lab` that README, docs and examples show runs
as it is pasted, page by page: it ends with the status 0 or 1, or as the page says, or
goes on for some seconds. What stands behind a `$` is played by test_readme.py, with
what it prints, and what a kit shows by tests/release/kits.py."""
import concurrent.futures
import os
import pathlib
import re
import shutil
import signal
import subprocess
import sys
from typing import Dict, List, Tuple

from arena_lab.rules.engines import TOP
from examples.contest import free_port
from tests.support.matches import InFolder, program

PAGES = ("README.md", "arena_lab/README.md", "docs/*.md", "examples/README.md")
COMMAND = re.compile(r"^ {4}(\./arena(?:-lab)? .*?[^\\])$", re.M | re.S)
# a wrong word or file is told within these seconds, on a busy machine too
SECONDS = 5.0
# what stands for something of the reader's
PLACES = {
    "TOURNAMENT": "examples/contest.toml",
    "PREFIX": "cup",
    "FOLDER": "pages",
    "REPLAY": "examples/first0.jsonl",
    "my-course.toml": "examples/course/course.toml",
    "cup.toml": "examples/contest.toml",
}
# runs the lab with a program that is named, as if it were built
LAB = """
import pathlib, sys
from arena_lab.support import built
path = pathlib.Path(sys.argv.pop(1))
built.any_program = lambda *_: path
from arena_lab.__main__ import main
sys.exit(main())
"""
# what one of these needs is not there: another machine, strace, a program of the
# reader's, a contest that was played
ELSEWHERE = re.compile(r"--cluster|strace|agent\.py|careful\.wasm|page TOURNAMENT")


def commands() -> Dict[str, List[str]]:
    """The commands of each page, without options in brackets and what a comment
    says."""
    results: Dict[str, List[str]] = {}
    for path in (path for pattern in PAGES for path in sorted(TOP.glob(pattern))):
        view = (
            re.sub(r"\\\n\s*", "", it)
            for it in COMMAND.findall(path.read_text(encoding="utf-8"))
        )
        results[str(path.relative_to(TOP))] = [
            re.sub(r" \[[^\]]*\]|\s+#.*| &$", "", it)
            for it in view
            if not ELSEWHERE.search(it)
        ]
    return results


class Commands(InFolder):
    def place_for(self, page: str) -> pathlib.Path:
        """Returns a folder with the contents of a clone, in which the commands of a
        page run."""
        folder = self.folder / page.replace("/", "-")
        for name in ("examples", "experiments"):
            shutil.copytree(TOP / name, folder / name)
        (folder / "arena_lab").symlink_to(TOP / "arena_lab")
        for name, words in (
            ("arena", program()),
            ("arena-lab", f"{sys.executable} -c '{LAB}' {program()}"),
        ):
            (folder / name).write_text(f'#!/bin/sh\nexec {words} "$@"\n')
            (folder / name).chmod(0o755)
        return folder

    def failing_commands(self, page: str, view: List[str]) -> List[str]:
        """The commands of a page that fail, each with what it said: what the page says
        of a failure aside."""
        folder = self.place_for(page)
        failures = []
        text = (TOP / page).read_text(encoding="utf-8")
        for command in view:
            for position, stands_for in PLACES.items():
                command = re.sub(rf"(?<!/)\b{re.escape(position)}", stands_for, command)
            command = re.sub(r"--port \d+", lambda _: f"--port {free_port()}", command)
            status, output = run_until_end(command, folder)
            if status not in (0, 1) and output.strip().rpartition("\n")[2] not in text:
                failures.append(f"{page}: {command}: {status} {output}")
        return failures

    def test_each_command_runs(self) -> None:
        result = commands()
        self.assertGreater(sum(map(len, result.values())), 35)
        with concurrent.futures.ThreadPoolExecutor(
            len(os.sched_getaffinity(0))
        ) as pool:
            failures = list(
                pool.map(lambda it: self.failing_commands(*it), result.items())
            )
        self.assertFalse(sum(failures, []), "\n".join(sum(failures, [])))


def run_until_end(command: str, folder: pathlib.Path) -> Tuple[int, str]:
    """Runs a command; returns its status (0 if it is still running at the limit) and
    its output."""
    child = subprocess.Popen(
        ["bash", "-c", command],
        cwd=folder,
        text=True,
        stdin=subprocess.DEVNULL,
        stdout=subprocess.PIPE,
        stderr=subprocess.STDOUT,
        start_new_session=True,
        env={**os.environ, "PYTHONPATH": str(TOP)},
    )
    try:
        output, _ = child.communicate(timeout=SECONDS)
        return child.returncode, output
    except subprocess.TimeoutExpired:
        os.killpg(child.pid, signal.SIGKILL)
        child.communicate()
        return 0, ""
