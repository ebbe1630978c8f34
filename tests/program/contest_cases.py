"""Cases that play contests over TCP whose clients keep to no rule: no client can
withhold the results."""
import contextlib
import pathlib
import re
import socket
import time
from typing import Callable, List, Optional, Sequence

from arena_lab.support.ports import free_port
from tests.program.program_cases import MATCH, SEED, TABLE_HEAD, TRIANGLE, case, writes
from tests.support.counts import FailedCheckError, require
from tests.support.program_rows import DONE, FAILED_STREAM, PATIENCE, Stage, expect
from tests.support.servers import Server, enter, serve
from tests.support.session_lines import HERE, LEAVE, LOOKS

TOP = pathlib.Path(__file__).resolve().parents[2]
TWO_TEAMS = (
    SEED
    + MATCH.format(network="tri.toml", key="r")
    + MATCH.format(network="tri.toml", key="b").replace('"red"', '"blue"')
)
IN_TURNS = TWO_TEAMS.replace(
    "version = 2\n",
    """version = 3
schedule = "oblivious"
delay_scales = 0
delay_odds = 1
""",
)
# seconds: what the matches last, what sessions have left then, and within which the
# server is to have ended
LASTS = 0.2
GRACE = 0.5
SOON = 5.0
MANY = 40


def serve_words(port: int, prefix: str) -> List[str]:
    """The words that serve cup.toml to four sessions for one turn."""
    words = f"serve cup.toml --port {port} --sessions 4 --turns 1 --pause 1"
    return [*words.split(), "--replay", prefix]


def start_server(
    stage: Stage,
    *extra: str,
    cup: str = TWO_TEAMS,
    turns: int = 20,
    pause: int = 10,
    sessions: int = 1000,
    grace: float = GRACE,
    limit: Optional[Callable[[], None]] = None,
) -> Server:
    """Starts a server of this tournament on the triangle; `limit` is called in the
    child before the start."""
    writes(stage, cup=cup, tri=TRIANGLE)
    return serve(
        stage.program,
        stage.folder,
        *extra,
        turns=turns,
        pause=pause,
        sessions=sessions,
        grace=int(grace * 1000),
        preexec_fn=limit,
    )


def table(*rows: str) -> bytes:
    return "".join(f"{row}\n" for row in (TABLE_HEAD, *rows)).encode()


# One agent of blue accuses the black hole, and red does nothing.
BLUE_GUESSES = table(
    "  1 blue             guess 1         0    0",
    "  2 red              silent          0    0",
)

Attack = Callable[[Server], List[socket.socket]]


def holds_up(stage: Stage, attack: Attack) -> None:
    """The server ends soon although these clients hold on to their connections, and the
    results are there."""
    with start_server(stage) as server, contextlib.ExitStack() as held_links:
        heard = server.hears(enter("ba") + b'{"do":"accuse","port":1}\n')
        for client in attack(server):
            held_links.enter_context(client)
        run = server.wait_for_end()
        took = time.monotonic() - server.begun
    expect(run, BLUE_GUESSES)
    require(heard.startswith(HERE), f"blue heard {heard!r}")
    require(took <= SOON, f"the server took {took:.1f} s")
    expect(stage.run(["judge", "match1.jsonl"]), b"guess 1 moves 0 lost 0\n")
    expect(stage.run(["judge", "match0.jsonl"]), b"silent moves 0 lost 0\n")


@case("a contest to which fewer connections come than it takes ends by itself")
def too_few(stage: Stage) -> None:
    holds_up(stage, lambda server: [])


@case("clients that say nothing hold up no contest")
def silent(stage: Stage) -> None:
    holds_up(stage, lambda server: [server.connect() for _ in range(MANY)])


@case("a client that has entered and says no more holds up no contest")
def enter_all(stage: Stage) -> None:
    holds_up(stage, lambda server: [server.connect(enter("ra"))])


def deaf_client(server: Server) -> List[socket.socket]:
    """It looks again and again, reads nothing, and is soon taken no more lines of."""
    client = socket.socket()
    client.setsockopt(socket.SOL_SOCKET, socket.SO_RCVBUF, 4096)
    client.connect(("127.0.0.1", server.port))
    client.sendall(enter("ra"))
    client.settimeout(0.2)
    with contextlib.suppress(OSError):
        while True:
            client.sendall(LOOKS)
    return [client]


@case("a client that reads no answers holds up no contest")
def deaf(stage: Stage) -> None:
    holds_up(stage, deaf_client)


@case("a contest to which nobody comes ends by itself")
def nobody(stage: Stage) -> None:
    with start_server(stage, sessions=4) as server:
        expect(
            server.wait_for_end(),
            table(
                "  1 blue             silent          0    0",
                "  2 red              silent          0    0",
            ),
        )
        took = time.monotonic() - server.begun
    require(took <= SOON, f"the server took {took:.1f} s")


@case("a contest whose sessions have all ended waits for nobody")
def all_ended(stage: Stage) -> None:
    with start_server(stage, sessions=1, grace=PATIENCE * 2) as server:
        server.hears(enter("ba") + b'{"do":"accuse","port":1}\n')
        expect(server.wait_for_end(), BLUE_GUESSES)


def waits_long(stage: Stage, waits: Sequence[float]) -> None:
    """A client that takes its last line within the grace period is answered."""
    with start_server(stage, grace=PATIENCE) as server:
        with server.connect(enter("ra")) as client, client.makefile("rb") as answers:
            answers.readline()
            for wait in waits:
                time.sleep(wait)
            client.sendall(b'{"do":"look"}\n')
            last = answers.readline()
        server.child.kill()
    require(last == b'{"ok":"over"}\n', f"a client heard {last!r} after the close")


@case("a session goes on within the grace period")
def last_line(stage: Stage) -> None:
    waits_long(stage, [LASTS * 3])


# Beginnings and ends by the agents.

LONG = 100_000


@case("with --early a contest ends once each agent has ended or is lost")
def early(stage: Stage) -> None:
    with start_server(stage, "--early", turns=LONG, sessions=4) as server:
        server.hears(enter("ba") + b'{"do":"accuse","port":1}\n')
        server.hears(enter("bb") + LEAVE)
        server.hears(enter("ra") + LEAVE)
        with server.connect(
            enter("rb") + b'{"do":"depart","port":1}\n'
        ) as lost, lost.makefile("rb") as answers:
            heard = [answers.readline() for _ in range(3)]
        expect(
            server.wait_for_end(),
            table(
                "  1 blue             guess 1         0    0",
                "  2 red              silent          1    1",
            ),
        )
    require(
        heard == [HERE, b'{"ok":"gone"}\n', b'{"ok":"over"}\n'],
        f"the lost agent heard {heard!r}",
    )


@case("with --early a contest goes on while an agent may still act")
def not_early(stage: Stage) -> None:
    with start_server(stage, "--early", turns=LONG) as server:
        for key in ("ba", "bb", "ra"):
            server.hears(enter(key) + LEAVE)
        time.sleep(LASTS * 5)
        if server.child.poll() is not None:
            raise FailedCheckError("the contest has ended")


@case("with --gather the turns begin once all agents have entered")
def gather(stage: Stage) -> None:
    with start_server(stage, "--gather", str(1000 * PATIENCE), turns=20) as server:
        time.sleep(LASTS * 3)
        for key in ("ba", "bb", "ra"):
            server.hears(enter(key) + LEAVE)
        if server.hears(enter("rb") + LEAVE) != HERE + b'{"ok":"bye"}\n':
            raise FailedCheckError("the match was over before all agents had entered")
        begin = time.monotonic()
        run = server.wait_for_end()
        took = time.monotonic() - begin
    expect(
        run,
        table(
            "  1 blue             silent          0    0",
            "  2 red              silent          0    0",
        ),
    )
    require(took <= SOON, f"the server took {took:.1f} s")


@case("with --gather the turns begin when its milliseconds have passed, at the latest")
def gather_ends(stage: Stage) -> None:
    with start_server(stage, "--gather", "400", turns=1, grace=0) as server:
        server.wait_for_end()
        took = time.monotonic() - server.begun
    require(0.4 <= took <= SOON, f"the server took {took:.1f} s")


SESSION_0_PLAYS = "serve: session 0 plays match 1 (blue) agent 0"
SESSION_0_ENDED = "serve: session 0 played match 1 (blue) agent 0: its agent accused"
TIME = re.compile(r"^\d+:[0-5]\d:[0-5]\d (?=serve: )")


@case("with --log it is told who comes, who plays, and how sessions and matches end")
def log(stage: Stage) -> None:
    with start_server(stage, "--log", sessions=4) as server:
        server.hears(enter("ba") + b'{"do":"accuse","port":1}\n')
        server.hears(enter("zz"))
        lines = server.wait_for_end().stderr.decode().splitlines()
    message = [TIME.sub("", line, count=1) for line in lines]
    results = sorted(
        re.sub(r"from 127\.0\.0\.1:\d+$", "from PEER", line) for line in message
    )
    require(all(map(TIME.match, lines)), f"a line has no time: {lines}")
    if results != [
        "serve: match 0 (red) closed: turns 20 events 1, silent moves 0 lost 0",
        "serve: match 1 (blue) closed: turns 20 events 3, guess 1 moves 0 lost 0",
        "serve: session 0 from PEER",
        SESSION_0_ENDED,
        SESSION_0_PLAYS,
        "serve: session 1 from PEER",
        "serve: session 1 played nobody: it was denied, since no agent has its key",
    ]:
        raise FailedCheckError(f"told was {results}")
    if message.index(SESSION_0_PLAYS) > message.index(SESSION_0_ENDED):
        raise FailedCheckError(
            f"a session is told to play once it has ended: {message}"
        )


@case(
    "a contest is served on an address of IPv6, and a word that is not an address is refused"
)
def address(stage: Stage) -> None:
    writes(stage, cup=TWO_TEAMS, tri=TRIANGLE)
    words = [*serve_words(free_port(), "match"), "--grace", "0", "--address"]
    message = b"serve: listen\n  this machine has no such address: give another --address, 0.0.0.0 for all of IPv4\n"
    for address in ("localhost", "192.0.2.7"):
        expect(stage.run([*words, address]), b"", message, FAILED_STREAM)
    run = stage.run([*words, "::1"])
    require(run.status == DONE, f"the server ended with {run}")
