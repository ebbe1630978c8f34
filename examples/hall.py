#!/usr/bin/env python3
"""Shows a hall on this machine: three sample teams practise and hand in programs, and a
fourth never comes.

    python3 examples/hall.py [--demo-seconds N] [--port N] [--no-browser]

Starts `./arena-lab hall` on examples/hall/course.toml in a temporary folder, opens its
page in a browser, and has the teams play until Enter is pressed, or for N seconds. Then
all of it ends, and the standings are printed. It says by which token one logs in as a
team, and by which password as the teacher.

It needs Debian's packages python3-django, python3-djangorestframework,
python3-waitress, python3-whitenoise, python3-networkx, python3-numpy, python3-scipy,
python3-greenlet, python3-tqdm and python3-jinja2. The program is the proved one if it
is built, else one without a proof, which is compiled first, by rustc in about a minute,
and says so; ARENA in the environment names another.
"""
import argparse
import csv
import io
import json
import os
import pathlib
import shutil
import signal
import subprocess
import sys
import tempfile
import threading
import time
import urllib.request
import webbrowser
import zipfile
from typing import Dict, List, NamedTuple, Optional

TOP = pathlib.Path(__file__).resolve().parent.parent
sys.path.insert(0, str(TOP))

from arena_lab.support.ports import free_port  # noqa: E402

AGENTS = TOP / "examples" / "agents"
PRACTISE = TOP / "examples" / "hall" / "practise.py"
COURSE = TOP / "examples" / "hall" / "course.toml"
DEBIANS_PYTHON = "/usr/bin/python3"
PATIENCE = 120
# seconds after which a request to the hall is given up
ANSWER = 20
ENTERS = ["{host}", "{port}", "{key}"]
ON_RINGS = [*ENTERS, "{nodes}"]
WITH_SIDE = [*ENTERS, "{nodes}", "{agent}"]
WITH_MAP = [*ENTERS, "{network}", "{home}"]


class Turn(NamedTuple):
    """What a team practises: the network, the program of an agent and its words."""

    network: str
    agent: str
    words: List[str] = ON_RINGS


PLAYED: Dict[str, List[Turn]] = {
    "amber": [Turn("ring of 8", "ring.py"), Turn("ring of 12", "ring.py")],
    "birch": [Turn("torus with a map", "known_map.py", WITH_MAP)],
    "cedar": [Turn("ring of 12", "shuttle.py", WITH_SIDE)],
}
# what teams hand in; the second needs a third agent, and solves nothing
PROGRAMS = {"amber": "ring.py", "birch": "ring3.py"}
EDGE = "----a-program"


class Demo:
    """A hall with teams that play in it."""

    def __init__(self, folder: pathlib.Path, port: int) -> None:
        self.folder = folder / "course.hall"
        self.port = port
        self.address = f"http://127.0.0.1:{port}"
        self._is_over = threading.Event()
        course = shutil.copy2(COURSE, folder)
        program = ["--program", os.environ["ARENA"]] if "ARENA" in os.environ else []
        self._hall = subprocess.Popen(
            [
                DEBIANS_PYTHON,
                "-m",
                "arena_lab",
                "hall",
                str(course),
                "--port",
                str(port),
                "--allow-weak-sandbox",
                *program,
            ],
            cwd=TOP,
            stdout=subprocess.DEVNULL,
        )
        self._teams: List[threading.Thread] = []

    def begin(self) -> None:
        """Waits until the hall answers, and lets the teams begin."""
        limit = time.monotonic() + PATIENCE
        while not self._answers():
            if self._hall.poll() is not None or time.monotonic() > limit:
                raise SystemExit("hall: the hall did not begin")
            time.sleep(0.2)
        tokens = self.tokens()
        self._teams = [
            threading.Thread(target=self._play, args=(name, tokens[name]))
            for name in PLAYED
        ]
        for team in self._teams:
            team.start()

    def tokens(self) -> Dict[str, str]:
        with (self.folder / "keys.csv").open(encoding="utf-8", newline="") as file:
            return {row["team"]: row["token"] for row in csv.DictReader(file)}

    def password(self) -> str:
        return (self.folder / "password.txt").read_text(encoding="utf-8").strip()

    def standings(self) -> str:
        """The standings, as lines."""
        request = urllib.request.Request(
            f"{self.address}/api/standings",
            headers={"Authorization": f"Bearer {self.tokens()['amber']}"},
        )
        with urllib.request.urlopen(request, timeout=ANSWER) as response:
            rows = json.load(response)["teams"]
        return "".join(
            f"{'absent' if row['absent'] else row['place']:>6} {row['name']:<16} "
            f"{row['solved']} of {row['matches']}\n"
            for row in rows
        )

    def hand_in(self, team: str, program: str) -> None:
        """Hands in a program with the module that it imports."""
        buffer = io.BytesIO()
        with zipfile.ZipFile(buffer, "w") as archive:
            archive.write(AGENTS / program, "agent.py")
            archive.write(AGENTS / "client.py", "client.py")
        head = f'--{EDGE}\r\nContent-Disposition: form-data; name="file"; filename="agent.zip"\r\n\r\n'
        request = urllib.request.Request(
            f"{self.address}/api/hand-ins",
            head.encode() + buffer.getvalue() + f"\r\n--{EDGE}--\r\n".encode(),
            {
                "Authorization": f"Bearer {self.tokens()[team]}",
                "Content-Type": f"multipart/form-data; boundary={EDGE}",
            },
        )
        urllib.request.urlopen(request, timeout=ANSWER).close()

    def end(self) -> None:
        self._is_over.set()
        self._hall.terminate()
        self._hall.wait()
        for team in self._teams:
            team.join()

    def _answers(self) -> bool:
        try:
            with urllib.request.urlopen(f"{self.address}/login", timeout=ANSWER):
                return True
        except OSError:
            return False

    def _play(self, team: str, token: str) -> None:
        """Plays a team that hands in its program and then practises repeatedly."""
        if team in PROGRAMS:
            try:
                self.hand_in(team, PROGRAMS[team])
            except OSError:
                # a hall that ends takes nothing
                if not self._is_over.is_set():
                    raise
        while not self._is_over.is_set():
            for turn in PLAYED[team]:
                if self._is_over.is_set():
                    return
                words = [
                    self.address,
                    turn.network,
                    sys.executable,
                    str(AGENTS / turn.agent),
                    *turn.words,
                ]
                process = subprocess.Popen(
                    [sys.executable, str(PRACTISE), *words],
                    stdout=subprocess.DEVNULL,
                    stderr=subprocess.DEVNULL,
                    env={**os.environ, "ARENA_TOKEN": token},
                )
                while process.poll() is None and not self._is_over.wait(0.2):
                    pass
                process.terminate()
                process.wait()
            self._is_over.wait(5)


def wait(seconds: Optional[float]) -> None:
    """Waits for this number of seconds, or until Enter is pressed; where nobody can
    press it, until a signal comes."""
    if seconds is not None:
        time.sleep(seconds)
        return
    try:
        input("press Enter to end it\n")
    except EOFError:
        threading.Event().wait()


def main() -> int:
    parser = argparse.ArgumentParser(
        description=__doc__, formatter_class=argparse.RawDescriptionHelpFormatter
    )
    parser.add_argument(
        "--demo-seconds",
        metavar="N",
        type=float,
        help="end after this number of seconds",
    )
    parser.add_argument(
        "--port",
        metavar="N",
        type=int,
        default=0,
        help="the port of the pages (a free one)",
    )
    parser.add_argument("--no-browser", action="store_true", help="open no browser")
    words = parser.parse_args()
    # whoever ends it so ends the hall and the teams too
    for ending in (signal.SIGTERM, signal.SIGHUP):
        signal.signal(ending, lambda number, _: sys.exit(128 + number))
    with tempfile.TemporaryDirectory(prefix="hall-") as name:
        demo = Demo(pathlib.Path(name), words.port or free_port())
        try:
            demo.begin()
            print(
                f"hall {demo.address}/\nlog in as a team: {demo.tokens()['amber']}\n"
                f"the teacher's pages: {demo.address}/teacher/, user teacher, password {demo.password()}",
                flush=True,
            )
            if not words.no_browser and words.demo_seconds is None:
                webbrowser.open(demo.address)
            wait(words.demo_seconds)
            print(demo.standings(), end="", flush=True)
        finally:
            demo.end()
    return 0


if __name__ == "__main__":
    try:
        sys.exit(main())
    except KeyboardInterrupt:
        print("\nhall: interrupted", file=sys.stderr)
        sys.exit(130)
