"""Cases of operators.py: whom a server cuts off, and whom it keeps."""
import contextlib
import pathlib
import re
import socket
import time
from typing import List

from bench.inputs import peak_so_far
from tests.hostile.operated_servers import (
    LONG,
    case,
    match_groups,
    heard,
    on_ring,
    start_server,
)
from tests.hostile.two_teams import WAITING, answer, entered_agent, looks, serving
from tests.support.counts import require, wants
from tests.support.servers import Server, enter
from tests.support.session_lines import (
    BYE,
    HERE,
    LEAVE,
    LOOK,
    NO_FULL,
    NO_LATE,
    NO_LINE,
    OVER,
    WRITTEN,
)

# how many looks, at a text of how many bytes, and by how many kilobytes a server may
# grow meanwhile
LOOKS = 3000
BOARD = 60_000
MAX_GROWTH = 20_000


# ---- who is cut off


@case("an agent that entered is not cut off when ten seconds have passed")
def plays_on(program: str, folder: pathlib.Path) -> None:
    with serving(program, folder, turns=LONG) as server, entered_agent(
        server, "red-0"
    ) as client:
        time.sleep(12)
        looks(client, "a look after 12 s")


@case("a client that is denied ends no agent's time of grace")
def denied_in_grace(program: str, folder: pathlib.Path) -> None:
    with serving(program, folder, turns=200, grace=5000) as server, entered_agent(
        server, "blue-0"
    ) as client:
        for number in range(5):
            with server.connect(enter(f"no-{number}")) as stranger:
                answer(stranger, 100)
        # the matches are closed after a second, and the session has five seconds left
        # then
        time.sleep(3)
        client.sendall(LOOK)
        wants("an agent within its time of grace", answer(client, len(OVER)), OVER)


@case("more agents play than may wait to be let in")
def many_agents(program: str, folder: pathlib.Path) -> None:
    matches = on_ring(*(f"t{number}" for number in range(5)), agents=60)
    with start_server(
        program, folder, matches, sessions=1000
    ) as server, contextlib.ExitStack() as stack:
        for key in [key for match in matches for key in match.keys]:
            client = stack.enter_context(server.connect(enter(key)))
            wants(f"agent {key}", answer(client, 7), HERE[:7])


@case("a client whose first line never ends is cut off for its bytes")
def dripping(program: str, folder: pathlib.Path) -> None:
    with serving(program, folder, turns=LONG) as server, server.connect() as client:
        start = time.monotonic()
        sent_count = 0
        client.settimeout(9)
        with contextlib.suppress(OSError):
            while time.monotonic() - start < 6:
                sent_count += client.send(b"\n" * 4096)
        require(time.monotonic() - start <= 5.5, f"it was let send {sent_count} bytes")


@case(
    "a client that was denied takes no room of the next, however few may be connected"
)
def denied_makes_room(program: str, folder: pathlib.Path) -> None:
    with serving(program, folder, turns=LONG, sessions=1) as server:
        for number in range(60):
            with server.connect(b"x\n") as stranger:
                # it leaves as soon as it knows that it is denied
                answer(stranger, 6)
                with server.connect() as client:
                    client.settimeout(0.02)
                    with contextlib.suppress(socket.timeout):
                        require(
                            client.recv(100) != NO_FULL,
                            f"client {number} was told full, though nobody plays",
                        )
            time.sleep(0.02)


@case(
    "with --log it is reported how many lines of an agent were no commands, and the first of them"
)
def told_strays(program: str, folder: pathlib.Path) -> None:
    with heard(program, folder, "--log", sessions=2) as server:
        strays = b'debug: \x1b[31mhere\r\n{"do":"jump"}\n' + b"x" * 70_000 + b"\n"
        with server.connect(enter("red-0") + b"\n" + LOOK + strays + LEAVE) as client:
            output = HERE + HERE + NO_LINE * 3 + BYE
            wants("what the agent is told", answer(client, len(output)), output)
        log = server.tells("no commands")
        wants(
            "what the operator is told",
            match_groups(
                r"(serve: session 0 played .*)\n.*(serve: session 0: .*)", log
            ),
            (
                "serve: session 0 played match 0 (red) agent 0: its agent left",
                r'serve: session 0: 3 lines were no commands, the first: "debug: \u001b[31mhere\u000d"',
            ),
        )


@case(
    "with --log a long line that was no command is cut, and one that is too long for a line is reported as that"
)
def told_cut(program: str, folder: pathlib.Path) -> None:
    with heard(program, folder, "--log", sessions=2) as server:
        text = ""
        for key, line in (("red-0", "ä".encode() * 1000), ("red-1", b"x" * 70_000)):
            with server.connect(enter(key) + line + b"\n" + LEAVE) as client:
                output = HERE + NO_LINE + BYE
                wants("what the agent is told", answer(client, len(output)), output)
            text += server.tells("was no command")
        with server.connect(enter("blue-0") + LOOK + LEAVE) as client:
            wants(
                "an agent without such lines",
                answer(client, len(HERE + HERE + BYE)),
                HERE + HERE + BYE,
            )
        server.says(b"close\n")
        text += server.wait_for_end().texts()[2]
    wants(
        "what the operator is told",
        re.findall(r"serve: session (\d+: .*)", text),
        [
            f'0: 1 line was no command: "{"ä" * 80}.."',
            "1: 1 line was no command: more than 65536 bytes",
        ],
    )


@case("thousands of looks at a whiteboard of 60,000 bytes keep its text once")
def looks_keep_one_text(program: str, folder: pathlib.Path) -> None:
    with start_server(
        program, folder, on_ring("red", agents=1, quota=65_535, board=65_535)
    ) as server, entered_agent(server, "red-0") as client:
        client.sendall(b'{"do":"write","expect":"","put":"%b"}\n' % (b"x" * BOARD))
        wants("write", answer(client, len(WRITTEN)), WRITTEN)
        before = peak_so_far(server.child)
        view = len(HERE) + BOARD
        for _ in range(LOOKS // 10):
            client.sendall(LOOK * 10)
            require(
                len(answer(client, 10 * view)) == 10 * view,
                "the looks are not answered",
            )
        grown = peak_so_far(server.child) - before
    require(grown <= MAX_GROWTH, f"{LOOKS} looks took {grown} KB")


@case("each client has a number of its own in the log")
def own_numbers(program: str, folder: pathlib.Path) -> None:
    with heard(program, folder, "--log", sessions=1) as server:
        with entered_agent(server, "red-0"):
            for _ in range(3):
                with server.connect(b"x\n") as second:
                    wants("a client more", answer(second, len(NO_FULL)), NO_FULL)
        server.says(b"close\n")
        errors = server.wait_for_end().texts()[2]
    wants(
        "the numbers of those who came",
        re.findall(r"serve: session (\d+) from", errors),
        ["0", "1", "2", "3"],
    )


# ---- floods

# a network of strangers, and one of agents
STRANGERS = "127.0.1.%d"
HOMES = "127.0.2.%d"


def flood(
    stack: contextlib.ExitStack, server: Server, count: int, places: int = 200
) -> List[socket.socket]:
    """Silent clients of one network, from this many addresses."""
    return [
        stack.enter_context(server.connect(source=STRANGERS % (client % places + 1)))
        for client in range(count)
    ]


@case("a flood cuts off no client of another network, however slow its first line is")
def slow_beside_flood(program: str, folder: pathlib.Path) -> None:
    with serving(
        program, folder, turns=LONG
    ) as server, contextlib.ExitStack() as stack:
        slow = stack.enter_context(server.connect(source=HOMES % 1))
        flood(stack, server, WAITING + 200)
        time.sleep(2)
        slow.sendall(enter("red-0"))
        wants("the slow agent", answer(slow, len(HERE)), HERE)
        stack.enter_context(
            entered_agent(
                server, "red-1", "an agent that comes later", source=HOMES % 2
            )
        )


@case("in a network the flood of one address cuts off no client of another")
def one_address(program: str, folder: pathlib.Path) -> None:
    with serving(
        program, folder, turns=LONG
    ) as server, contextlib.ExitStack() as stack:
        slow = stack.enter_context(server.connect(source=STRANGERS % 9))
        flood(stack, server, WAITING + 50, places=1)
        slow.sendall(enter("red-0"))
        wants("the slow agent", answer(slow, len(HERE)), HERE)


@case("those who wait take no room of those who play")
def apart(program: str, folder: pathlib.Path) -> None:
    with serving(
        program, folder, turns=LONG, sessions=4
    ) as server, contextlib.ExitStack() as stack:
        slow = stack.enter_context(server.connect())
        flood(stack, server, 100)
        for key in ("red-1", "blue-0", "blue-1"):
            stack.enter_context(entered_agent(server, key))
        slow.sendall(enter("red-0"))
        wants("the agent that came first", answer(slow, len(HERE)), HERE)


@case(
    "when as many play as may, one that waited is told that there is no room, and its key is not used up"
)
def no_room_to_play(program: str, folder: pathlib.Path) -> None:
    with serving(
        program, folder, turns=LONG, sessions=1
    ) as server, server.connect() as waits:
        with entered_agent(server, "red-0", "the agent that plays"):
            waits.sendall(enter("red-1"))
            wants("the agent that waited", answer(waits, len(NO_FULL)), NO_FULL)
        time.sleep(0.5)
        entered_agent(server, "red-1", "its next try").close()


@case(
    "an address from which an agent entered keeps room for one client while others flood from there"
)
def kept_room(program: str, folder: pathlib.Path) -> None:
    with serving(
        program, folder, turns=LONG
    ) as server, contextlib.ExitStack() as stack:
        entered_agent(server, "red-0", source=STRANGERS % 1).close()
        slow = stack.enter_context(server.connect(source=STRANGERS % 1))
        strangers = flood(stack, server, WAITING - 1, places=1)
        time.sleep(1.6)
        strangers += flood(stack, server, 20, places=1)
        slow.sendall(enter("red-1"))
        wants("the slow agent", answer(slow, len(HERE)), HERE)
        wants("the oldest stranger", answer(strangers[0], len(NO_LATE)), NO_LATE)
