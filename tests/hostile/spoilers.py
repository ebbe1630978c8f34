"""Tries to spoil contests as somebody without a key would, or a machine that lacks
something.

    python3 -m tests.hostile.spoilers PROGRAM [TEXT]

Each case serves a contest of two teams on a ring in a temporary folder; with TEXT only
those whose titles have it. A line for each says how it went, and the last line reads `N
passed, M failed`. It takes about a minute.
"""
import contextlib
import json
import os
import pathlib
import resource
import signal
import socket
import subprocess
import sys
import threading
import time
from typing import Callable, List, Tuple

from tests.hostile.operator_lines import CASES, case
from tests.hostile.two_teams import (
    TEAMS,
    WAITING,
    answer,
    entered_agent,
    goes_on,
    looks,
    serving,
    tournament,
)
from tests.support.counts import FailedCheckError, require, wants
from tests.support.servers import PATIENCE, Server, enter, serve
from tests.support.session_lines import (
    HERE,
    LOOK,
    NO_FULL,
    NO_LATE,
    NO_MEMORY,
    NO_SPENT,
    NO_TWICE,
)

# seconds within which the first line of a client is to come
FIRST_LINE = 10.0
# a client keeps its place for at least these seconds; how often the case is tried if
# the machine is too busy for them
ROOM_AFTER = 0.5
TRIES = 10
REFUSED = 6
NO_THREADS = 7


# Strangers.


@case("clients that connect and close use up no session")
def strangers(program: str, folder: pathlib.Path) -> None:
    with serving(program, folder) as server:
        for _ in range(300):
            server.connect().close()
        entered_agent(server, "blue-0", "an agent that comes after them").close()
        status, output, _ = server.wait_for_end().texts()
        wants("the status", status, 0)


@case(
    "commands that use up no quota are answered one a millisecond, and others play on"
)
def unheard(program: str, folder: pathlib.Path) -> None:
    quota = 1000
    extra = 500
    with serving(program, folder, turns=4000) as server, entered_agent(
        server, "red-0"
    ) as client:
        waits(client, extra, enter("red-0"), NO_TWICE)
        client.sendall(quota * LOOK)
        wants("its commands", answer(client, quota * len(HERE)), quota * HERE)
        waits(client, extra, LOOK, NO_SPENT)
        goes_on(server, "commands that use up no quota")


def waits(client: socket.socket, count: int, text: bytes, expectation: bytes) -> None:
    """This number of commands is refused so, and no faster than one a millisecond."""
    start = time.monotonic()
    client.sendall(count * text)
    wants(
        "commands that use up no quota",
        answer(client, count * len(expectation)),
        count * expectation,
    )
    took = time.monotonic() - start
    require(
        took >= count / 1000,
        f"{count} commands that use up no quota were answered within {took:.3f} s",
    )


@case("wrong keys use up no session")
def wrong_keys(program: str, folder: pathlib.Path) -> None:
    with serving(program, folder, turns=4000) as server:
        for number in range(150):
            with server.connect(enter(f"nobody-{number}")) as client:
                wants("a wrong key", answer(client, 100), b'{"no":"key"}\n')
        entered_agent(server, "blue-0", "an agent that comes after them").close()


@case(
    "silent clients of one address make room after a second, the oldest first, and are told why"
)
def silent(program: str, folder: pathlib.Path) -> None:
    if not any(makes_room_in_time(program, folder) for _ in range(TRIES)):
        raise FailedCheckError(
            f"{WAITING} clients did not connect in {ROOM_AFTER} s in any of {TRIES} tries: the machine is busy"
        )


def makes_room_in_time(program: str, folder: pathlib.Path) -> bool:
    """Returns whether the clients connected before the first of them had waited for
    long: else it is the first that makes room, and not who comes."""
    with serving(
        program, folder, sessions=1000, turns=2000
    ) as server, contextlib.ExitStack() as stack:
        start = time.monotonic()
        clients = [stack.enter_context(server.connect()) for _ in range(WAITING)]
        with server.connect(enter("blue-0")) as client:
            output = answer(client, len(NO_FULL))
        if time.monotonic() - start > ROOM_AFTER:
            return False
        wants("one that comes at once", output, NO_FULL)
        time.sleep(1.6)
        clients += [stack.enter_context(server.connect()) for _ in range(20)]
        entered_agent(server, "blue-0", "an agent that comes after them").close()
        wants("the oldest", answer(clients[0], 100), NO_LATE)
        clients[-1].sendall(enter("red-0"))
        wants("the newest", answer(clients[-1], len(HERE)), HERE)
    return True


@case("a client whose first line does not come in some seconds is told so")
def late(program: str, folder: pathlib.Path) -> None:
    with serving(program, folder, turns=5000) as server, server.connect(
        b'{"do":'
    ) as client:
        wants("it", answer(client, 100), NO_LATE)
        if not FIRST_LINE / 2 < time.monotonic() - server.begun < 2 * FIRST_LINE:
            raise FailedCheckError("it was cut off too early or too late")


@case("when the sessions of all agents go on, who comes is told that there is no room")
def full(program: str, folder: pathlib.Path) -> None:
    with serving(program, folder, sessions=2, turns=4000) as server, entered_agent(
        server, "red-0", "the first"
    ), entered_agent(server, "red-1", "the second") as two:
        with server.connect() as third:
            wants("the third", answer(third, 100), NO_FULL)
        two.close()
        time.sleep(0.5)
        entered_agent(
            server, "blue-0", "the one that comes when there is room again"
        ).close()


@case(
    "the log says why a client is not let in, and when there are fewer sessions than agents"
)
def told_why(program: str, folder: pathlib.Path) -> None:
    with serving(program, folder, "--log", sessions=2) as server:
        for message in (b"x\n", enter("nobody"), enter("red-0"), enter("red-0")):
            with server.connect(message) as client:
                answer(client, 10)
        errors = server.wait_for_end().texts()[2]
    for line in (
        "serve: --sessions 2 is below the number of agents, 4",
        "since its first line was no enter",
        "since no agent has its key",
        "since its key was used before",
    ):
        require(line in errors, f"{line!r} is not told, but {errors!r}")


# The end.


def flooding(server: Server, stop: threading.Event, clients: int) -> None:
    """Clients without a key that send line feeds as fast as they are taken."""
    sockets: List[socket.socket] = []
    with contextlib.suppress(OSError):
        for _ in range(clients):
            sockets.append(server.connect())
            sockets[-1].setblocking(False)
    while not stop.is_set():
        for client in sockets:
            with contextlib.suppress(OSError):
                client.send(b"\n" * 65_536)
        time.sleep(0.001)
    for client in sockets:
        client.close()


@case("clients that send line feeds do not hold up the end")
def flooded_end(program: str, folder: pathlib.Path) -> None:
    with serving(program, folder, turns=300) as server, entered_agent(server, "red-0"):
        stop = threading.Event()
        flood = threading.Thread(target=flooding, args=(server, stop, 60))
        flood.start()
        try:
            status, _, _ = server.wait_for_end().texts()
        finally:
            stop.set()
            flood.join()
        wants("the status", status, 0)
        if time.monotonic() - server.begun > PATIENCE:
            raise FailedCheckError(
                f"the end came after {time.monotonic() - server.begun:.1f} s"
            )


# The log.


def nearly_full() -> Tuple[int, int]:
    """The ends of a pipe that takes no more than 4096 bytes."""
    reader, write = os.pipe()
    os.set_blocking(write, False)
    with contextlib.suppress(BlockingIOError):
        while True:
            os.write(write, b"-" * 4096)
    os.read(reader, 4096)
    os.set_blocking(write, True)
    return reader, write


@case("a log that nobody reads stops no contest")
def unread_log(program: str, folder: pathlib.Path) -> None:
    reader, write = nearly_full()
    try:
        with serving(program, folder, "--log", stderr=write) as server:
            for _ in range(60):
                with server.connect(b"x\n") as client:
                    wants("a stranger", answer(client, 100), b'{"no":"enter"}\n')
            with server.connect(enter("blue-0") + LOOK) as client:
                wants("an agent", answer(client, 2 * len(HERE)), HERE + HERE)
            wants("the status", server.wait_for_end()[0], 0)
        wants(
            "the replays",
            sorted(path.name for path in folder.glob("match*")),
            ["match0.jsonl", "match1.jsonl"],
        )
    finally:
        os.close(reader)
        os.close(write)


# Files.


@case("files of earlier contests are never replaced")
def earlier_files(program: str, folder: pathlib.Path) -> None:
    for number in range(3):
        with serving(program, folder, turns=1) as server:
            with server.connect(enter(f"red-{number % 2}") + LOOK * number) as client:
                answer(client, 1000)
            server.wait_for_end()
    results = sorted(path.name for path in folder.glob("match0*"))
    wants(
        "the files", results, ["match0.jsonl", "match0.jsonl.old", "match0.jsonl.old2"]
    )


@case("a second server with the same prefix is refused, and leaves all files alone")
def two_servers(program: str, folder: pathlib.Path) -> None:
    with serving(program, folder, turns=2000) as first, entered_agent(first, "red-0"):
        before = sorted(
            (path.name, path.read_bytes())
            for path in folder.glob("match*")
            if path.suffix != ".part"
        )
        second = serve(program, folder)
        status, output, errors = second.wait_for_end().texts()
        wants("the status of the second", (status, output), (REFUSED, ""))
        require("match0.jsonl.part: busy" in errors, f"the second told {errors!r}")
        after = sorted(
            (path.name, path.read_bytes())
            for path in folder.glob("match*")
            if path.suffix != ".part"
        )
        wants("the files", after, before)


# What a machine lacks.


def is_root() -> bool:
    return os.geteuid() == 0


def threads(most: int) -> Callable[[], None]:
    """Returns a function that switches to an otherwise unused user with this limit of
    threads."""

    def limit() -> None:
        resource.setrlimit(resource.RLIMIT_NPROC, (most, most))
        os.setgid(63_998)
        os.setuid(63_998)

    return limit


@case("a contest without threads for its matches is refused before it listens")
def no_threads(program: str, folder: pathlib.Path) -> None:
    if not is_root():
        return
    folder.chmod(0o777)
    status, output, errors = (
        serving(program, folder, preexec_fn=threads(4)).wait_for_end().texts()
    )
    wants("the status and what was printed", (status, output), (NO_THREADS, ""))
    require("serve: threads" in errors, f"it told {errors!r}")


# threads of a contest of two matches before it listens: its own, one of each match, and
# five more
THREADS = 8


@case(
    "a client for which there is no thread is told so, and can come again; the matches go on"
)
def no_thread_for_a_session(program: str, folder: pathlib.Path) -> None:
    if not is_root():
        return
    folder.chmod(0o777)
    with serving(
        program, folder, "--log", turns=1000, preexec_fn=threads(THREADS)
    ) as server, contextlib.ExitStack() as stack:
        heard = {}
        for key in ("red-0", "red-1", "blue-0", "blue-1"):
            client = stack.enter_context(server.connect(enter(key)))
            heard[key] = (client, answer(client, len(HERE)))
        plays = [client for client, message in heard.values() if message == HERE]
        waits = [key for key, (_, message) in heard.items() if message == NO_MEMORY]
        if not plays or not waits or len(plays) + len(waits) != len(heard):
            raise FailedCheckError(
                f"the agents heard {[message for _, message in heard.values()]}"
            )
        looks(plays[0], "an agent whose session goes on")
        plays[0].close()
        time.sleep(0.5)
        stack.enter_context(
            entered_agent(server, waits[0], "the same key once there is a thread")
        )
        stack.pop_all().close()
        status, output, errors = server.wait_for_end().texts()
    wants(
        "the status and the lines of the table",
        (status, len(output.splitlines())),
        (0, 3),
    )
    require(
        "it was not served, since memory or threads ran out" in errors,
        f"told was {errors!r}",
    )


@case("parts are written on while descriptors are used up")
def few_descriptors(program: str, folder: pathlib.Path) -> None:
    def limit() -> None:
        resource.setrlimit(resource.RLIMIT_NOFILE, (24, 24))

    with serving(
        program, folder, turns=4000, preexec_fn=limit
    ) as server, contextlib.ExitStack() as stack:
        client = stack.enter_context(entered_agent(server, "red-0"))
        for _ in range(40):
            stack.enter_context(server.connect())
        looks(client)
        time.sleep(3)
        part = (folder / "match0.jsonl.part").read_bytes()
        require(part.count(b"\n") == 3, f"the part is {part!r}")


@case("a part goes on once there is room")
def part_goes_on(program: str, folder: pathlib.Path) -> None:
    room = 700
    looks = 20

    def limit() -> None:
        signal.signal(signal.SIGXFSZ, signal.SIG_IGN)
        resource.setrlimit(resource.RLIMIT_FSIZE, (room, resource.RLIM_INFINITY))

    with serving(program, folder, turns=4000, preexec_fn=limit) as server:
        with server.connect(enter("red-0") + LOOK * looks) as client:
            answer(client, (1 + looks) * len(HERE))
            time.sleep(1.5)
            part = folder / "match0.jsonl.part"
            require(
                part.stat().st_size <= room, f"the part has {part.stat().st_size} bytes"
            )
            resource.prlimit(
                server.child.pid,
                resource.RLIMIT_FSIZE,
                (resource.RLIM_INFINITY, resource.RLIM_INFINITY),
            )
            time.sleep(1.5)
            lines = part.read_text().splitlines()
            wants("the lines of the part", len(lines), 2 + looks)
            for line in lines:
                json.loads(line)


@case("a tournament alone is served as suits a course")
def course(program: str, folder: pathlib.Path) -> None:
    tournament(folder)
    with Server([program, "serve", "cup.toml"], folder) as server:
        for team in TEAMS:
            for agent in range(2):
                with server.connect(
                    enter(f"{team}-{agent}") + b'{"do":"leave"}\n'
                ) as client:
                    wants("an agent", answer(client, 1000), HERE + b'{"ok":"bye"}\n')
        errors = server.wait_for_end().texts()[2]
    wants(
        "the replays",
        sorted(path.name for path in folder.glob("cup*l")),
        ["cup.toml", "cup0.jsonl", "cup1.jsonl"],
    )
    require(
        "serve: session 0 plays match 0 (red) agent 0" in errors, f"told was {errors!r}"
    )


@case("a name controls no terminal")
def shown_names(program: str, folder: pathlib.Path) -> None:
    name = "a\u009b\u202e\u2066b"
    run = subprocess.run(
        [program, "judge", name],
        cwd=folder,
        capture_output=True,
        text=True,
        check=False,
    )
    errors = run.stderr.splitlines()[-2]
    wants("the fault", errors, r"a\u{9b}\u{202e}\u{2066}b: read")


if __name__ == "__main__":
    sys.exit(CASES.command(__doc__, sys.argv[1:]))
