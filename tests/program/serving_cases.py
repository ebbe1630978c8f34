"""Cases that play contests over TCP whose clients keep to the rules. Each catches a
server that serves most contests well and does one thing wrong: for a match, an agent, a
session or an address past the first, or past a limit."""
import contextlib
import os
import re
import resource
import signal
import socket
import time
from typing import Iterator, List

from tests.program.contest_cases import LONG, start_server
from tests.program.contest_files import full_disk, wait_for
from tests.program.program_cases import MATCH, SEED, case
from tests.support.counts import FailedCheckError, require
from tests.support.program_rows import PATIENCE, Stage
from tests.support.servers import Server, enter
from tests.support.session_lines import BYE, DEPART, GONE, HERE, LEAVE, LOOK, OVER

# one match on the triangle, whose agents may give many commands and write long texts
ROOMY = SEED + MATCH.format(network="tri.toml", key="r").replace(
    "quota = 10", "quota = 1000"
).replace("board = 8", "board = 4096")
# one match in which nobody arrives by port 0 of the home base
HELD = SEED + MATCH.format(network="tri.toml", key="r") + "held = [[0, 0]]\n"


def told_lines(server: Server) -> List[str]:
    """What a server told until it ended, line by line."""
    return server.wait_for_end().stderr.decode().splitlines()


def wants(lines: List[str], *texts: str) -> None:
    """Requires a line that ends with each of these texts."""
    missing = [text for text in texts if not any(line.endswith(text) for line in lines)]
    require(not missing, f"{missing} is not told, but {lines}")


def told_so_far(server: Server, text: bytes) -> bytes:
    """What a server has told once it has told this text, or at the end of patience."""
    os.set_blocking(server.child.stderr.fileno(), False)
    message = bytearray()

    def is_there() -> bool:
        message.extend(server.child.stderr.read() or b"")
        return text in message

    wait_for(is_there)
    return bytes(message)


# Matches by themselves.


def closed_line(match: int) -> bytes:
    return b"match %d (%b) closed: turns " % (match, (b"red", b"blue")[match])


def begins_alone(stage: Stage, match: int, keys: str) -> None:
    """The match whose agents enter takes its turns and is closed; the other one still
    waits for its agents."""
    with start_server(
        stage, "--gather", str(1000 * PATIENCE), "--log", turns=1, grace=0
    ) as server:
        for agent in "ab":
            server.hears(enter(keys + agent) + LEAVE)
        message = told_so_far(server, closed_line(match))
    require(
        closed_line(match) in message,
        f"match {match} waits for more than its own agents: {message!r}",
    )
    require(
        closed_line(1 - match) not in message,
        f"match {1 - match} does not wait for its own agents: {message!r}",
    )


@case("with --gather the first match waits for its own agents alone")
def first_gathers(stage: Stage) -> None:
    begins_alone(stage, 0, "r")


@case("with --gather the second match waits for its own agents alone")
def second_gathers(stage: Stage) -> None:
    begins_alone(stage, 1, "b")


@case("--gather ends by the clock, also where the server has slept for longer")
def gathers_by_the_clock(stage: Stage) -> None:
    with start_server(stage, "--gather", "8000", turns=0, grace=0) as server:
        time.sleep(1)
        server.child.send_signal(signal.SIGSTOP)
        time.sleep(8)
        server.child.send_signal(signal.SIGCONT)
        start = time.monotonic()
        server.child.wait(PATIENCE)
    took = time.monotonic() - start
    require(took < 5, f"it gathered for {took:.1f} seconds more")


@case("a match takes as many turns as it is given")
def all_turns(stage: Stage) -> None:
    with start_server(
        stage, "--log", turns=1200, pause=0, sessions=1, grace=0
    ) as server:
        lines = told_lines(server)
    for match in (0, 1):
        require(
            any(closed_line(match).decode() + "1200 " in line for line in lines),
            f"told was {lines}",
        )


@case("with --early a match goes on while an agent is on a link")
def not_early_on_a_link(stage: Stage) -> None:
    with start_server(stage, "--early", cup=HELD, turns=LONG) as server, server.connect(
        enter("ra") + DEPART
    ) as client:
        server.hears(enter("rb") + LEAVE)
        with client.makefile("rb") as answers:
            heard = answers.readline() + answers.readline()
            client.settimeout(1.0)
            with contextlib.suppress(OSError):
                heard += answers.readline()
        has_ended = server.child.poll() is not None
    if heard != HERE + GONE or has_ended:
        raise FailedCheckError(
            f"the agent on the link heard {heard!r}; the contest has {'' if has_ended else 'not '}ended"
        )


# Sessions past the first.


@case("with --log the agent is told that a session plays")
def log_second_agent(stage: Stage) -> None:
    with start_server(stage, "--log", sessions=1) as server:
        server.hears(enter("rb") + LEAVE)
        wants(
            told_lines(server),
            "plays match 0 (red) agent 1",
            "played match 0 (red) agent 1: its agent left",
        )


@case("with --log each ending of a session has its own words")
def log_endings(stage: Stage) -> None:
    with start_server(stage, "--log", turns=30, sessions=3) as server:
        server.hears(enter("ra"))
        with server.connect(enter("ba")) as late, late.makefile("rb") as answers:
            answers.readline()
            time.sleep(0.6)
            late.sendall(LOOK)
            answers.read()
        server.hears(b"")
        wants(
            told_lines(server),
            "played match 0 (red) agent 0: its input ended",
            "played match 1 (blue) agent 0: its match was over",
            "played nobody: its input ended",
        )


@case("the last of 64 agents is let in")
def last_agent(stage: Stage) -> None:
    keys = ", ".join(f'"k{agent}"' for agent in range(64))
    cup = SEED + re.sub(
        r"keys = .*", f"keys = [{keys}]", MATCH.format(network="tri.toml", key="r")
    )
    with start_server(stage, cup=cup, turns=LONG) as server:
        heard = server.hears(enter("k63") + LEAVE)
    require(heard == HERE + BYE, f"the last agent heard {heard!r}")


@case("the first who enters after the close is told that the match is over")
def enters_after_the_close(stage: Stage) -> None:
    with start_server(stage, turns=1, grace=PATIENCE) as server:
        time.sleep(0.5)
        heard = server.hears(enter("ra"))
    require(heard == OVER, f"it heard {heard!r}")


FEW_DESCRIPTORS = 12


def descriptors(server: Server) -> int:
    """Returns how many descriptors a server has open."""
    return len(os.listdir(f"/proc/{server.child.pid}/fd"))


@case("who connects while descriptors are used up is served once some are free")
def descriptors_used_up(stage: Stage) -> None:
    def limit() -> None:
        resource.setrlimit(resource.RLIMIT_NOFILE, (FEW_DESCRIPTORS, FEW_DESCRIPTORS))

    many = FEW_DESCRIPTORS + 2
    with start_server(
        stage, "--log", turns=LONG, limit=limit, sessions=2 * many
    ) as server:
        before = descriptors(server)
        clients = [server.connect() for _ in range(many)]
        # all were accepted; the last ones replaced others, which were disconnected
        told_so_far(server, b"session %d from " % (many - 1))
        for client in clients:
            client.close()
        # who comes before the server has read these ends may be cut off, too
        are_free = wait_for(lambda: descriptors(server) <= before)
        heard = server.hears(enter("ra") + LEAVE)
    require(are_free, "descriptors are used up after all clients have gone")
    require(heard == HERE + BYE, f"it heard {heard!r}")


# Answers past the first thousand, or past what a connection holds back.


@case("a session is answered as many lines as its quota has")
def long_session(stage: Stage) -> None:
    with start_server(stage, cup=ROOMY, turns=LONG) as server:
        heard = server.hears(enter("ra") + LOOK * 1000 + LEAVE)
    require(
        heard == HERE * 1001 + BYE,
        f"it heard {heard.count(b'here')} sights in {len(heard)} bytes",
    )


@case("more answers than a connection holds back come whole and in order")
def answers_in_order(stage: Stage) -> None:
    text = b"x" * 400
    rounds = 300
    wrong_port = b'{"do":"depart","port":9}\n'
    wrong_write = b'{"do":"write","expect":"","put":""}\n'
    lines = (
        enter("ra")
        + b'{"do":"write","expect":"","put":"%b"}\n' % text
        + (LOOK + wrong_port + wrong_write) * rounds
    )
    sight = HERE.replace(b'"board":""', b'"board":"%b"' % text)
    view = b'{"board":"%b","ok":"changed"}\n' % text
    with start_server(stage, cup=ROOMY, turns=LONG) as server, server.connect(
        lines + LEAVE
    ) as client:
        time.sleep(0.5)
        with client.makefile("rb") as answers:
            heard = answers.read()
    if (
        heard
        != HERE
        + b'{"ok":"written"}\n'
        + (sight + b'{"no":"port"}\n' + view) * rounds
        + BYE
    ):
        raise FailedCheckError(f"it heard {len(heard)} bytes, in another order")


@case("an agent that departs is told so before it arrives")
def told_before_it_waits(stage: Stage) -> None:
    with start_server(stage, cup=HELD, turns=LONG) as server, server.connect(
        enter("ra") + DEPART
    ) as client:
        client.settimeout(5.0)
        with client.makefile("rb") as answers:
            try:
                heard = answers.readline() + answers.readline()
            except OSError as fault:
                raise FailedCheckError(f"it was not told: {fault}") from fault
    require(heard == HERE + GONE, f"it heard {heard!r}")


@case("an agent that moves fifty times is told of each arrival")
def many_arrivals(stage: Stage) -> None:
    with start_server(stage, cup=ROOMY, turns=LONG, pause=1) as server:
        heard = server.hears(enter("ra") + DEPART * 50 + LEAVE)
    if (
        heard.count(GONE) != 50
        or heard.count(b'"from":0') != 50
        or not heard.endswith(BYE)
    ):
        raise FailedCheckError(f"it heard {heard!r}")


# Addresses.


@case("a server on one address of this machine is not on another")
def one_address(stage: Stage) -> None:
    with start_server(stage, "--address", "127.0.0.1", turns=LONG) as server:
        with contextlib.suppress(ConnectionRefusedError):
            socket.create_connection(
                ("127.0.0.2", server.port), timeout=PATIENCE
            ).close()
            raise FailedCheckError("it listens on 127.0.0.2 too")


@case("a server on 127.0.0.2 is there, and not on 127.0.0.1")
def other_address(stage: Stage) -> None:
    with start_server(stage, "--address", "127.0.0.2", turns=LONG) as server:
        socket.create_connection(("127.0.0.2", server.port), timeout=PATIENCE).close()
        with contextlib.suppress(ConnectionRefusedError):
            socket.create_connection(
                ("127.0.0.1", server.port), timeout=PATIENCE
            ).close()
            raise FailedCheckError("it listens on 127.0.0.1 too")


# Parts.


def events_of_part(stage: Stage, match: int) -> int:
    return (stage.folder / f"match{match}.jsonl.part").read_bytes().count(b"\n") - 1


@contextlib.contextmanager
def playing_red(stage: Stage, lines: bytes) -> Iterator[Server]:
    """A server that goes on after an agent of red has said this, and was answered each
    line."""
    with start_server(stage, cup=ROOMY, turns=LONG) as server:
        server.hears(lines)
        yield server


@case("one look writes all events that a part lacks")
def many_events_at_a_look(stage: Stage) -> None:
    with playing_red(stage, enter("ra") + LOOK * 998 + LEAVE):
        time.sleep(1.2)
        require(
            events_of_part(stage, 0) == 1000,
            f"the part has {events_of_part(stage, 0)} events",
        )


@case("a part is written again and again")
def part_goes_on(stage: Stage) -> None:
    with start_server(stage, cup=ROOMY, turns=LONG) as server, server.connect(
        enter("ra")
    ) as client:
        for events in range(1, 4):
            if not wait_for(
                lambda: events_of_part(stage, 0) == events
            ):  # noqa: B023  asked at once
                raise FailedCheckError(
                    f"the part has {events_of_part(stage, 0)} events, and not {events}"
                )
            client.sendall(LOOK)


@case("a part that could not be written on is told once")
def failed_part(stage: Stage) -> None:
    with start_server(stage, grace=0, turns=150, limit=full_disk) as server:
        server.hears(enter("ba") + LOOK * 9 + LEAVE)
        errors = server.wait_for_end().stderr
    require(errors.count(b"the part of match 1 stops") == 1, f"told was {errors!r}")
