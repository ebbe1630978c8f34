#!/usr/bin/env python3
"""Plays a contest on this machine: the server, four teams of the sample agents, and the
table.

    python3 examples/contest.py [--keep FOLDER] [--pages FOLDER] [--watch] [--kill]

Starts the server on examples/contest.toml, and then the agents of each team as programs
of their own, as teams would do. Waits for the server to end, and prints its table and
which teams solved their networks. All of them must: else the exit status is 1.

The server is `./arena serve`. Where tools/build has not built the proved program,
./arena compiles one without a proof first, by rustc in about a minute, and says at each
start that it is not proved. Without rustc and Rattle's toolchain it is the server in
Python, `./arena-lab serve`, and a line says so.

With --kill the agents of the team green are killed in the middle of their search, and
the other teams must solve theirs. Files go to a temporary folder; --keep has the
replays of the matches written to a folder, --pages also a page of each and a list of
them (./arena-lab page). With --watch a browser shows the contest while it goes on
(./arena-lab watch); turns are slower then, and the page stays until you press Enter.
ARENA in the environment names another server, as ARENA="./arena-lab" for the one in
Python.
"""
import argparse
import contextlib
import itertools
import os
import pathlib
import shlex
import shutil
import subprocess
import sys
import tempfile
import time
import webbrowser
from typing import Dict, Iterator, List

TOP = pathlib.Path(__file__).resolve().parent.parent
sys.path.insert(0, str(TOP))

from arena_lab.support import built  # noqa: E402
from arena_lab.support.ports import free_port  # noqa: E402

AGENTS = TOP / "examples" / "agents"
RELEASED_RING = TOP / "bin" / "ring"
TOURNAMENT = "examples/contest.toml"
# the lab's command, whose `serve` plays where there is no program
LAB = "arena-lab"
TURNS = 10_000
PAUSE = 2
# milliseconds: what the matches wait for their agents
GATHER = 10_000
PATIENCE = 60
# whose agents are killed, if any are, after how many seconds, and in turns of how many
# milliseconds: by then they have entered, and they need longer to search
VICTIM = "green"
LIFE = 1.5
SLOW_PAUSE = 12
# milliseconds of a turn that one can follow on a screen
WATCHED_PAUSE = 60
# pages are laid out by a package of Debian, which another Python does not see
DEBIANS_PYTHON = "/usr/bin/python3"
RING = ["8"]
CUBE = ["16", "32"]


def command_of(agent: str, key: str, port: int, folder: pathlib.Path) -> List[str]:
    """The command line of the agent with this key: by the name of its program."""
    if agent == "ring.c":
        return [str(folder / "ring"), str(port), key, *RING]
    facts = RING if agent == "ring.py" else CUBE
    return [sys.executable, str(AGENTS / agent), "127.0.0.1", str(port), key, *facts]


TEAMS: Dict[str, List[str]] = {
    "red": ["ring.py"] * 2,
    "blue": ["ring.c"] * 2,
    "violet": ["ring.py", "ring.c"],
    "green": ["map.py"] * 5,
}


def arena() -> List[str]:
    """Returns the server's command: the variable ARENA, else ./arena beside the
    examples or the lab (a wheel has none), else the server in Python."""
    if "ARENA" in os.environ:
        return shlex.split(os.environ["ARENA"])
    launcher = next(
        (
            folder / "arena"
            for folder in (TOP, built.TOP)
            if (folder / "arena").exists()
        ),
        None,
    )
    if launcher is None:
        return [str(built.ARENA.wheel_path)]
    return [str(launcher if built.can_play() else launcher.with_name(LAB))]


def build(folder: pathlib.Path) -> None:
    """Builds the agent that is written in C. A release has it built."""
    if RELEASED_RING.exists():
        shutil.copy2(RELEASED_RING, folder / "ring")
        return
    words = [
        "-O2",
        "-Wall",
        "-Wextra",
        "-o",
        str(folder / "ring"),
        str(AGENTS / "ring.c"),
    ]
    try:
        subprocess.run(["cc", *words], check=True)
    except FileNotFoundError:
        raise SystemExit(
            "contest: cc is missing: install a C compiler, by Debian's package gcc"
        ) from None


def start_server(
    server: List[str], port: int, replays: str, pause: int
) -> subprocess.Popen:
    sessions = sum(len(agents) for agents in TEAMS.values())
    words = [
        "serve",
        TOURNAMENT,
        "--port",
        port,
        "--sessions",
        sessions,
        "--turns",
        TURNS,
        "--pause",
        pause,
    ]
    command = [
        *server,
        *map(str, words),
        "--gather",
        str(GATHER),
        "--early",
        "--replay",
        replays,
    ]
    process = subprocess.Popen(command, cwd=TOP, stdout=subprocess.PIPE, text=True)
    line = process.stdout.readline()
    if line != f"listening {port}\n":
        raise SystemExit(f"contest: the server did not start: {line}")
    return process


def play(
    command: List[str], folder: pathlib.Path, replays: str, pause: int, kills: bool
) -> str:
    """Plays the contest, and answers the server's table. The agents of one team may be
    killed meanwhile."""
    build(folder)
    port = free_port()
    server = start_server(command, port, replays, pause)
    agents = {
        team: [
            subprocess.Popen(
                command_of(agent, f"{team}-{number}", port, folder),
                stderr=subprocess.DEVNULL,
                stdout=subprocess.DEVNULL,
            )
            for number, agent in enumerate(programs)
        ]
        for team, programs in TEAMS.items()
    }
    try:
        if kills:
            time.sleep(LIFE)
            for agent in agents[VICTIM]:
                agent.kill()
        output, _ = server.communicate(timeout=PATIENCE * max(1, pause // SLOW_PAUSE))
    except subprocess.TimeoutExpired:
        raise SystemExit(
            f"contest: the server did not end within {PATIENCE} seconds"
        ) from None
    finally:
        for child in [server, *itertools.chain.from_iterable(agents.values())]:
            if child.poll() is None:
                child.kill()
            child.wait()
    if server.returncode != 0:
        raise SystemExit(f"contest: the server ended with status {server.returncode}")
    return output


def outcomes(table: str) -> Dict[str, str]:
    """Each team's outcome, by the lines of the table."""
    rows = [line.split() for line in table.splitlines()[1:]]
    return {row[1]: " ".join(row[2:-2]) for row in rows}


def write_pages(replays: str, folder: pathlib.Path) -> None:
    """Writes the pages of all matches and their index, with verdicts by the serving
    program or by the model."""
    server = arena()
    is_model = pathlib.Path(server[0]).name == LAB or len(server) > 1
    program = (
        ["--engine", "model"]
        if is_model
        else ["--program", server[0]]
        if "ARENA" in os.environ
        else []
    )
    tool = [
        DEBIANS_PYTHON,
        "-m",
        "arena_lab",
        "page",
        TOURNAMENT,
        replays,
        "--out",
        str(folder.resolve()),
        *program,
    ]
    subprocess.run(tool, cwd=TOP, check=True)


@contextlib.contextmanager
def serve_pages(replays: str, pause: int) -> Iterator[None]:
    """Shows the contest in a browser while it goes on, and until Enter is pressed."""
    port = free_port()
    words = [
        TOURNAMENT,
        replays,
        "--port",
        port,
        "--turns",
        TURNS,
        "--pause",
        pause,
        "--gather",
        GATHER,
    ]
    with subprocess.Popen(
        [DEBIANS_PYTHON, "-m", "arena_lab", "watch", *map(str, words)],
        cwd=TOP,
        stdout=subprocess.PIPE,
        text=True,
    ) as child:
        try:
            line = child.stdout.readline()
            if not line:
                raise SystemExit("contest: the page cannot be shown")
            print(line, end="", flush=True)
            webbrowser.open(line.split()[1])
            yield
            input("press Enter to end the page")
        finally:
            child.kill()


def main() -> int:
    parser = argparse.ArgumentParser(
        description=__doc__, formatter_class=argparse.RawDescriptionHelpFormatter
    )
    parser.add_argument(
        "--keep", metavar="FOLDER", type=pathlib.Path, help="write the replays there"
    )
    parser.add_argument(
        "--pages",
        metavar="FOLDER",
        type=pathlib.Path,
        help="write a page of each match there, and a list of them",
    )
    parser.add_argument(
        "--watch",
        action="store_true",
        help="show the contest in a browser while it goes on",
    )
    parser.add_argument(
        "--kill",
        action="store_true",
        help=f"kill the agents of {VICTIM} after a second",
    )
    words = parser.parse_args()
    with tempfile.TemporaryDirectory() as name:
        folder = words.keep or words.pages or pathlib.Path(name)
        folder.mkdir(parents=True, exist_ok=True)
        replays = str(folder.resolve() / "match")
        pause = WATCHED_PAUSE if words.watch else SLOW_PAUSE if words.kill else PAUSE
        server = arena()
        if "ARENA" not in os.environ and pathlib.Path(server[0]).name == LAB:
            print(
                "contest: there is no program, and no toolchain that compiles one: `./arena-lab serve` plays, a "
                "server in Python, of which nothing is proved",
                file=sys.stderr,
                flush=True,
            )
        with serve_pages(replays, pause) if words.watch else contextlib.nullcontext():
            table = play(server, pathlib.Path(name), replays, pause, words.kill)
            print(table, end="", flush=True)
        outcomes_by_team = outcomes(table)
        teams = [team for team in TEAMS if not (words.kill and team == VICTIM)]
        failing_teams = [
            team for team in teams if outcomes_by_team.get(team) != "solved"
        ]
        for team in teams:
            print(
                f"{team} solved its network"
                if team not in failing_teams
                else f"{team} did not solve its network"
            )
        if words.pages:
            write_pages(replays, words.pages)
    return 1 if failing_teams else 0


if __name__ == "__main__":
    try:
        sys.exit(main())
    except KeyboardInterrupt:
        print("\ncontest: interrupted", file=sys.stderr)
        sys.exit(130)
