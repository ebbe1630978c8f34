"""Grades a course of four honest teams alone, and then with eight that want to win or
to stop it by other ways.

    /usr/bin/python3 -m tests.hostile.hostile_course [--program PATH] [--seeds N] [--workers N ..]

A hostile team makes thousands of folders in folders and hands in links to files that
never end; guesses the black holes by how they were drawn; talks past the whiteboards;
stalls; takes memory and disk; looks for results and secrets; sends its lines without
reading the answers; or ends with words that forge faults. One honest team is wrong.
Without --program the Python model plays.

A line for each check says how it went, and the last line counts. The exit status is 1
if one of these fails, for each number of workers:

- The honest teams get the same rows as alone, byte for byte but for the number of the
  match.
- It takes less than three times as long. Each team has one and a half times the time
  that an honest one takes alone.
- The command ends with status 0. No hostile team solves a match but the one that does
  not read, and by chance the one that guesses.
- Nothing is left of it in the folder for temporary files.

Then two commands grade the honest teams at the same time, and again the rows are the
same. A run takes some minutes. Where other work comes and goes beside it, the times of
the two gradings cannot be compared, and that check may fail.
"""
import argparse
import pathlib
import shutil
import subprocess
import sys
import tempfile
import time
from typing import Dict, List

from arena_lab.sweep import tables
from tests.support.counts import report_counts
from tests.support.courses import rows_of_teams, team

TOP = pathlib.Path(__file__).resolve().parents[2]
AGENTS = TOP / "examples" / "agents"
MUTANT = TOP / "examples" / "agents" / "faulty" / "reads_once.py"
HEAD = """title = "A hostile course"
networks = ["ring:24", "ring:48", "ring:64"]
holes = 2
schedulers = ["fair", "slow-agents"]
seeds = {seeds}
limit = 4
match_limit = 5
team_limit = {team_limit}
tries = 20
"""
# of a team with hostile ones, how many times as long as an honest team takes alone
MORE = 1.5
HONEST = {
    "amber": (
        [AGENTS / "client.py", AGENTS / "ring.py"],
        "python3 ring.py {host} {port} {key} {nodes}",
    ),
    "birch": (
        [AGENTS / "client.py", AGENTS / "known_map.py"],
        "python3 known_map.py {host} {port} {key} {network} {home}",
    ),
    "cedar": ([AGENTS / "ring.c"], "./ring {port} {key} {nodes}"),
    "dahlia": (
        [
            AGENTS / "client.py",
            AGENTS / "ring.py",
            MUTANT,
            TOP / "examples" / "course" / "cedar",
        ],
        "python3 hasty.py {host} {port} {key} {nodes}",
    ),
}
# what each hostile program begins with
CONNECTS = """import json, os, socket, sys, time
port, key, nodes = int(sys.argv[1]), sys.argv[2], int(sys.argv[3])
server = socket.create_connection(("127.0.0.1", port))
lines = server.makefile("rw", newline="\\n")
def ask(**command):
    lines.write(json.dumps(command) + "\\n")
    lines.flush()
    return json.loads(lines.readline())
"""
HOSTILE = {
    "deep": """for _ in range(3000):
    os.mkdir("d")
    os.chdir("d")
ask(do="enter", key=key)
ask(do="leave")
""",
    "guess": """import random
match = (os.getuid() - 61184) // 64
agent = (os.getuid() - 61184) % 64 % 2
holes = sorted(random.Random(f"ring:{nodes} 2").sample(range(1, nodes), 2))
hole = holes[match // 2 % 2]
ask(do="enter", key=key)
for _ in range(hole - 1 if agent == 0 else nodes - 1 - hole):
    ask(do="depart", port=agent)
    lines.readline()
ask(do="accuse", port=agent)
""",
    "talk": """import ctypes, fcntl
libc = ctypes.CDLL(None)
heard = []
for path in ("/etc/hosts", "/usr/bin/env", "/etc/passwd"):
    try:
        file = open(path)
        fcntl.flock(file, fcntl.LOCK_EX | fcntl.LOCK_NB)
        heard.append(path)
    except OSError:
        pass
if libc.syscall(248, b"user", b"cheat", key.encode(), len(key), -3) > 0:
    heard.append("keyring")
if libc.syscall(294, 0) > 0:
    heard.append("inotify")
ask(do="enter", key=key)
sys.exit(f"talks by {', '.join(heard) or 'nothing'}")
""",
    "stall": """ask(do="enter", key=key)
while True:
    time.sleep(0.9)
    ask(do="look")
""",
    "take": """for _ in range(3):
    if os.fork() == 0:
        taken = bytearray(1 << 30)
        for place in range(0, len(taken), 4096):
            taken[place] = 1
        time.sleep(100)
for number in range(12):
    with open(str(number), "wb") as file:
        for _ in range(63):
            file.write(bytes(1 << 20))
ask(do="enter", key=key)
time.sleep(100)
""",
    "look": """found = []
for top in set(os.listdir("/")) - {"usr", "lib", "proc"}:
    for folder, _, names in os.walk(f"/{top}"):
        found += [f"{folder}/{name}" for name in names if name in ("runs.csv", "secret.txt", "course.toml")]
ask(do="enter", key=key)
sys.exit(f"finds {', '.join(found) or 'nothing'}")
""",
    "blind": """said = [{"do": "enter", "key": key}, *({"do": "depart", "port": 0} for _ in range(nodes - 1))]
said.append({"do": "accuse", "port": 0})
server.sendall("".join(json.dumps(command) + "\\n" for command in said).encode())
os._exit(0)
""",
    "shout": r"""ask(do="enter", key=key)
ask(do="write", expect="", put="</script><script>alert(1)</script>\u202e\x1b[2J")
sys.stderr.write("\x1b]0;owned\x07\x9b31m\u202e \"q\", =1+1; agent 1: forged\r\x00\n")
sys.exit(3)
""",
}
# what is compared of rows
NAMES = [name for name in tables.COLUMNS if name not in ("run", "check", "fault")]


def honest(folder: pathlib.Path) -> List[str]:
    """The honest teams of a course's file. One hands in a program in C, which is
    compiled."""
    path = folder / "cedar"
    path.mkdir()
    subprocess.run(
        ["cc", "-O2", "-o", str(path / "ring"), str(AGENTS / "ring.c")], check=True
    )
    return [
        team(name, [path] if name == "cedar" else files, command)
        for name, (files, command) in HONEST.items()
    ]


def hostile(folder: pathlib.Path) -> List[str]:
    """The hostile teams of a course's file."""
    results = []
    for name, code in HOSTILE.items():
        path = folder / name
        path.mkdir()
        (path / "evil.py").write_text(CONNECTS + code, encoding="utf-8")
        for link, leads in (("log", "/proc/kmsg"), ("zero", "/dev/zero"), ("up", "..")):
            (path / link).symlink_to(leads)
        results.append(team(name, [path], "python3 evil.py {port} {key} {nodes}"))
    return results


class Grading:
    """Grades courses in a folder, by one secret; counts checks."""

    def __init__(self, folder: pathlib.Path, engine: List[str]) -> None:
        self.folder = folder
        self.engine = engine
        self.passed = self.failed = 0
        (folder / "secret").write_text("a secret of this course\n")

    def words(self, course: str, out: str, workers: int) -> List[str]:
        return [
            sys.executable,
            "-m",
            "arena_lab",
            "grade",
            str(self.folder / course),
            "--out",
            str(self.folder / out),
            "--secret",
            str(self.folder / "secret"),
            "--workers",
            str(workers),
            *self.engine,
        ]

    def grade(self, course: str, out: str, workers: int) -> float:
        """Grades a course; gives how many seconds it took."""
        began = time.monotonic()
        result = subprocess.run(
            self.words(course, out, workers), cwd=TOP, capture_output=True, text=True
        )
        took = time.monotonic() - began
        print(result.stdout.strip())
        self.check(
            f"{out}: status {result.returncode} in {took:.1f} s",
            result.returncode == 0,
            result.stderr,
        )
        return took

    def rows(self, out: str) -> Dict[str, List[List[str]]]:
        """The rows of each team, without the numbers of matches."""
        return {
            name: [[*(row[column] for column in NAMES), *row["faults"]] for row in rows]
            for name, rows in rows_of_teams(self.folder / out).items()
        }

    def check(self, text: str, is_right: bool, extra: str = "") -> None:
        print(
            f"{'ok' if is_right else 'FAILED'}: {text}{'' if is_right else extra}",
            flush=True,
        )
        self.passed += is_right
        self.failed += not is_right

    def compare(self, out: str, alone: Dict[str, List[List[str]]]) -> None:
        """Checks that the honest teams have the rows that they have alone."""
        rows = self.rows(out)
        for name in HONEST:
            rest = [
                (mine, own) for mine, own in zip(rows[name], alone[name]) if mine != own
            ]
            self.check(
                f"{out}: the rows of {name} are the same",
                rows[name] == alone[name],
                f" but for {rest[:2]}",
            )
        for name in set(HOSTILE) & set(rows) - {"blind"}:
            solved_count = sum(row[9] == "solved" for row in rows[name])
            by_chance = len(rows[name]) // 4 if name == "guess" else 0
            self.check(
                f"{out}: {name} solves {solved_count} of {len(rows[name])}",
                solved_count <= by_chance,
            )
            print("   ", {fault for row in rows[name] for fault in row[15:] if fault})

    def with_hostile(
        self, workers: int, alone: Dict[str, List[List[str]]], took_alone: float
    ) -> None:
        """Grades all twelve teams."""
        out = f"hostile-{workers}"
        text = (
            (self.folder / "teams")
            .read_text()
            .format(team_limit=round(MORE * workers * took_alone / len(HONEST)))
        )
        (self.folder / "all.toml").write_text(text)
        took = self.grade("all.toml", out, workers)
        self.compare(out, alone)
        self.check(
            f"{out}: {took:.1f} s, {took / took_alone:.2f} times as long as alone",
            took < 3 * took_alone,
        )

    def two_commands(self, alone: Dict[str, List[List[str]]]) -> None:
        """Two commands at the same time."""
        outs = ["one", "other"]
        process = [
            subprocess.Popen(
                self.words("honest.toml", out, 2), cwd=TOP, stdout=subprocess.DEVNULL
            )
            for out in outs
        ]
        for child, out in zip(process, outs):
            self.check(
                f"{out} of two commands: status {child.wait()}", child.returncode == 0
            )
            self.compare(out, alone)


def main() -> int:
    parser = argparse.ArgumentParser(
        description=__doc__, formatter_class=argparse.RawDescriptionHelpFormatter
    )
    parser.add_argument(
        "--program", help="the program that plays, instead of the Python model"
    )
    parser.add_argument(
        "--seeds", type=int, default=4, help="seeds of each scheduler (4)"
    )
    parser.add_argument(
        "--workers",
        type=int,
        nargs="+",
        default=[1, 4],
        help="numbers of workers (1 4)",
    )
    words = parser.parse_args()
    with tempfile.TemporaryDirectory(
        prefix="course-"
    ) as path, tempfile.TemporaryDirectory() as temporary:
        folder = pathlib.Path(path)
        tempfile.tempdir = temporary
        engine = (
            ["--program", words.program] if words.program else ["--engine", "model"]
        )
        grading = Grading(folder, engine)
        good = honest(folder)
        bad = hostile(folder)
        (folder / "honest.toml").write_text(
            HEAD.format(seeds=words.seeds, team_limit=10_000) + "".join(good)
        )
        mixed_value = [
            text
            for number, own in enumerate(good)
            for text in [*bad[2 * number : 2 * number + 2], own]
        ]
        teams = "".join(mixed_value).replace("{", "{{").replace("}", "}}")
        (folder / "teams").write_text(
            HEAD.format(seeds=words.seeds, team_limit="{team_limit}") + teams
        )
        for workers in words.workers:
            took = grading.grade("honest.toml", f"honest-{workers}", workers)
            alone = grading.rows(f"honest-{workers}")
            grading.compare(
                f"honest-{workers}", grading.rows(f"honest-{words.workers[0]}")
            )
            grading.with_hostile(workers, alone, took)
        grading.two_commands(alone)
        remaining = [
            path.name for path in pathlib.Path(tempfile.gettempdir()).iterdir()
        ]
        grading.check(f"left: {remaining or 'nothing'}", not remaining)
        shutil.rmtree(folder, ignore_errors=True)
        folder.mkdir(exist_ok=True)
    return report_counts(grading.passed, grading.failed)


if __name__ == "__main__":
    sys.exit(main())
