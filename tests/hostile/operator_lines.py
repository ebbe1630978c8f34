"""Cases of spoilers.py: what the operator says on standard input or in a terminal, and
what nobody says there."""
import contextlib
import fcntl
import os
import pathlib
import pty
import subprocess
import termios
import time
from typing import Iterator, List, Sequence, Tuple

from tests.hostile.two_teams import TEAMS, answer, entered_agent, goes_on, serving
from tests.support.cases import Cases
from tests.support.counts import require, wants
from tests.support.servers import Server, enter
from tests.support.session_lines import HERE, LOOK, OVER

CASES = Cases()
case = CASES.case

# turns that take longer than any case
LONG = 1_000_000
# how the teams are ranked if blue has accused a wrong link and red nobody
RANKED = (
    "  1 red              silent          0    0\n",
    "  2 blue             wrong           0    0\n",
)


def closed_in(folder: pathlib.Path) -> List[str]:
    return sorted(path.name for path in folder.glob("match*.jsonl"))


@case(
    "the operator closes all matches: the replays are written, the table is printed, and the server ends"
)
def operator_closes(program: str, folder: pathlib.Path) -> None:
    with serving(
        program, folder, turns=LONG, stdin=subprocess.PIPE
    ) as server, entered_agent(server, "red-0"):
        server.says(b"clo")
        time.sleep(0.3)
        server.says(b"se\n")
        status, output, errors = server.wait_for_end().texts()
    wants("the status", status, 0)
    wants(
        "the teams of the table",
        sorted(line.split()[1] for line in output.splitlines()[1:]),
        sorted(TEAMS),
    )
    wants("the replays", closed_in(folder), ["match0.jsonl", "match1.jsonl"])
    require(
        "serve: the operator closes all matches\n" in errors, f"told was {errors!r}"
    )


def closes_one(program: str, folder: pathlib.Path, game: int) -> None:
    closing = TEAMS[game]
    second = TEAMS[1 - game]
    with serving(
        program, folder, "--log", turns=LONG, stdin=subprocess.PIPE
    ) as server, entered_agent(server, f"{closing}-0") as ends, entered_agent(
        server, f"{second}-0"
    ) as stays:
        server.says(b"close %d\n" % game)
        server.tells(f"serve: match {game} ({closing}) closed: ")
        for client, heard in ((ends, OVER), (stays, HERE)):
            client.sendall(LOOK)
            wants("an agent after the close", answer(client, len(heard)), heard)
        server.says(b"close %d\n" % (1 - game))
        status, output, errors = server.wait_for_end().texts()
    wants(
        "the status and the lines of the table",
        (status, len(output.splitlines())),
        (0, 3),
    )
    require(
        f"serve: match {1 - game} ({second}) closed: " in errors, f"told was {errors!r}"
    )


@case("the operator closes one match, and the other goes on")
def operator_closes_one(program: str, folder: pathlib.Path) -> None:
    for game in (0, 1):
        closes_one(program, folder, game)


@case("the operator closes matches that still wait for their agents or pause")
def operator_closes_early(program: str, folder: pathlib.Path) -> None:
    for options, pause in ((["--gather", "1000000"], 5), ([], 1_000_000)):
        with serving(
            program, folder, *options, turns=LONG, pause=pause, stdin=subprocess.PIPE
        ) as server:
            server.says(b"close\n")
            status, output, _ = server.wait_for_end().texts()
        wants(f"the status with {options}", (status, len(output.splitlines())), (0, 3))


@case(
    "the operator is told how the contest stands: who is missing, the turns, the events, the teams ranked"
)
def operator_asks(program: str, folder: pathlib.Path) -> None:
    # with a log, the verdict told at the close of a match is final
    for options in ([], ["--log"]):
        asks(program, folder, options)


def asks(program: str, folder: pathlib.Path, options: Sequence[str]) -> None:
    with serving(
        program, folder, *options, turns=LONG, stdin=subprocess.PIPE
    ) as server, server.connect(
        enter("blue-1") + b'{"do":"accuse","port":1}\n'
    ) as client:
        answer(client, 1000)
        # a team that nobody has entered for is not ranked before one that plays
        server.says(b"status\n")
        log = server.tells("  - red: no agent of match 0 has entered\n")
        require("  1 blue" in log and "  2 " not in log, f"{log!r}")
        with entered_agent(server, "red-0"):
            server.says(b"status\n")
            log = server.tells("  2 ")
            server.says(b"close 1\nstatus\n")
            later = server.tells("  2 ")
    for line in (
        " serve: sessions 1, agents to come 2, open matches 2\n",
        " serve: match 0 (red) is open: turns ",
        f" of {LONG} events 1\n",
        " serve: match 0 (red) misses agents 1\n",
        " serve: match 1 (blue) misses agents 0\n",
        " serve: if all matches were closed now:\n",
        *RANKED,
    ):
        require(line in log, f"{line!r} is not told, but {log!r}")
    for line in (
        ", open matches 1\n",
        " serve: match 1 (blue) is closed: turns ",
        *RANKED,
    ):
        require(line in later, f"{line!r} is not told, but {later!r}")


@case("the end of standard input, and a line that it cuts off, close nothing")
def input_ends(program: str, folder: pathlib.Path) -> None:
    with serving(program, folder, turns=LONG, stdin=subprocess.PIPE) as server:
        server.says(b"close")
        server.child.stdin.close()
        time.sleep(1)
        goes_on(server, "the end of standard input")


@case("a line that asks for nothing is told, with what there is to ask for")
def asks_for_nothing(program: str, folder: pathlib.Path) -> None:
    with serving(program, folder, turns=LONG, stdin=subprocess.PIPE) as server:
        server.says(
            b"stop\n\nclose 2\nclose 01\nclose -1\nclose \n"
            + b"close" * 50
            + b"\nClose\n\xff\n"
        )
        server.tells(
            "serve: ignored 8 lines of standard input: expected close, close M with M below 2, or status\n"
        )
        goes_on(server, "them")


@case("a flood on standard input holds nothing up, and drops no line of the log")
def input_floods(program: str, folder: pathlib.Path) -> None:
    with serving(program, folder, "--log", turns=600, stdin=subprocess.PIPE) as server:
        os.set_blocking(server.child.stdin.fileno(), False)
        until = time.monotonic() + 1
        while time.monotonic() < until:
            with contextlib.suppress(BlockingIOError):
                os.write(server.child.stdin.fileno(), b"status\nx\n" * 1000)
        goes_on(server, "the flood")
        status, output, errors = server.wait_for_end().texts()
    wants("the status", (status, len(output.splitlines())), (0, 3))
    require("dropped" not in errors, "lines of the log were dropped")


@case("a client is not the operator, where standard input is closed")
def closed_input(program: str, folder: pathlib.Path) -> None:
    with serving(program, folder, turns=LONG, preexec_fn=lambda: os.close(0)) as server:
        with server.connect(b"close\n" * 10), server.connect(
            enter("red-0") + b"close\n" * 10
        ):
            time.sleep(1)
        goes_on(server, "lines of clients")


@contextlib.contextmanager
def in_terminal(
    program: str, folder: pathlib.Path, is_behind: bool
) -> Iterator[Tuple[Server, int]]:
    """A server whose standard input is a terminal, in the background of a session or in
    front; and who types there."""
    typing, terminal = pty.openpty()

    def joins() -> None:
        os.setsid()
        fcntl.ioctl(0, termios.TIOCSCTTY, 0)
        if is_behind:
            # the leader of the session stays in front, and a child in a group of its
            # own goes on as the server
            child = os.fork()
            if child:
                os.closerange(3, 256)
                os._exit(os.waitstatus_to_exitcode(os.waitpid(child, 0)[1]) & 0xFF)
            os.setpgid(0, 0)

    try:
        with serving(
            program, folder, turns=2000, stdin=terminal, preexec_fn=joins
        ) as server:
            yield server, typing
    finally:
        os.close(typing)
        os.close(terminal)


@case("a server in the background of a terminal is not stopped by what is typed there")
def behind(program: str, folder: pathlib.Path) -> None:
    with in_terminal(program, folder, True) as (server, typing):
        os.write(typing, b"close\n")
        time.sleep(1)
        goes_on(server, "what was typed for others")
        wants("the status", server.wait_for_end()[0], 0)


@case("a server in front of a terminal hears what is typed there")
def in_front(program: str, folder: pathlib.Path) -> None:
    with in_terminal(program, folder, False) as (server, typing):
        os.write(typing, b"close\n")
        wants("the status", server.wait_for_end()[0], 0)
        require(time.monotonic() - server.begun <= 5, "it was not closed at once")
