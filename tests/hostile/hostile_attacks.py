"""The attacks of tests/hostile/hostile_clients.py: clients that keep to no rule, and
what each of them should see.

Each attack opens sessions of a `Siege`, and answers what was seen, as a text; it raises
`Wrong` if that is not as it should be. Sockets that are to stay open until the matches
have ended are kept with the siege.
"""
import contextlib
import pathlib
import select
import socket
import struct
import threading
import time
from typing import Callable, Dict, List, NamedTuple, Optional, Sequence

from arena_lab.rules.limits import MAX_AGENTS
from arena_lab.rules.model import spell
from bench.inputs import LONGEST_TEXT, MIB, key
from bench.servers import MAX_SESSIONS
from tests.support.counts import FailedCheckError, require
from tests.support.servers import Server, enter
from tests.support.session_lines import (
    BYE,
    DEPART,
    HERE,
    LEAVE,
    LOOK,
    LOOKS,
    NO_ENTER,
    NO_KEY,
    NO_LATE,
    NO_LINE,
    NO_TAKEN,
    WRITTEN,
)

TOP = pathlib.Path(__file__).resolve().parents[2]
HOST = "127.0.0.1"
POLITE = 0
HOSTILE = 1
STRANGER = MAX_AGENTS - 1
# seconds: within which answers come, and for which a client waits at all
PROMPT = 2.0
PATIENCE = 10.0
HALF_OPEN = 8
RESETS = 8
FLOODS = 20
DEAF = 4
BURST = 32
# clients that may wait for admission at once, with a margin
WAITING = 200
SMALL_BUFFER = 4096
MAX_UNREAD = 32 * MIB

DEEP = 30_000
# lines that are no commands
GARBAGE = [
    bytes(byte for byte in range(256) if byte != 10),
    b"\0" * 1000,
    b"\xff\xfe\x00",
    b"\xef\xbb\xbf" + LOOK[:-1],
    b"[" * 60_000,
    b'{"do":"look","deep":' + b"[" * DEEP + b"]" * DEEP + b"}",
    b'{"do":"look","text":"\xff"}',
    b'{"do":"look"} {"do":"look"}',
    b'{"do":"write","expect":"","put":1}',
    b'{"do":"depart","port":' + b"9" * 10_000 + b"}",
    b'{"do":"enter","key":"k"' + b" " * 65_536 + b"}",
    b'{"do":"enter"}',
    b"GET / HTTP/1.1\r",
]
# how many sessions the attacks take that come after the silent clients, apart from
# wrong keys
LATER = len(GARBAGE) + 1 + FLOODS + DEAF


class Sizes(NamedTuple):
    """How large an attack is: the sessions; the turns of a match and the milliseconds
    before each; the seconds between the bytes of a slow client, between the steps of a
    polite one, and until a server that takes nothing is said to take no more; the bytes
    of a line without an end."""

    sessions: int = MAX_SESSIONS
    turns: int = 2500
    pause: int = 10
    between_bytes: float = 0.5
    between_steps: float = 0.1
    still: float = 1.0
    flood: int = 10 * MIB


def hear(client: socket.socket, expectation: bytes, limit: float = PROMPT) -> None:
    """Reads as much as is expected, which is to come within this many seconds."""
    heard = b""
    begin = time.monotonic()
    try:
        while len(heard) < len(expectation):
            piece = client.recv(len(expectation) - len(heard))
            if not piece:
                break
            heard += piece
    except OSError as fault:
        raise FailedCheckError(
            f"{fault}, where {expectation[:60]!r} should come"
        ) from fault
    require(
        heard == expectation, f"{heard[:60]!r}, where {expectation[:60]!r} should come"
    )
    took = time.monotonic() - begin
    require(took <= limit, f"an answer took {took:.1f} s")


def hear_end(client: socket.socket) -> None:
    """Waits for the end of the connection, before which nothing comes."""
    try:
        heard = client.recv(1)
    except ConnectionError:
        return
    except OSError as fault:
        raise FailedCheckError(f"{fault}, where the connection should end") from fault
    require(not heard, "an answer came, where the connection should end")


def wait_for_lines(client: socket.socket, count: int) -> None:
    """Waits until this many lines have come, and leaves them unread."""
    end = time.monotonic() + PROMPT
    while client.recv(SMALL_BUFFER, socket.MSG_PEEK).count(b"\n") < count:
        require(time.monotonic() <= end, "an answer did not come")
        time.sleep(0.001)


def has_heard(client: socket.socket) -> bool:
    """Returns whether something has come that was not read, or the connection has
    ended."""
    poll = select.poll()
    poll.register(client, select.POLLIN)
    return bool(poll.poll(0))


def reset(client: socket.socket) -> None:
    """Closes a connection without a farewell."""
    client.setsockopt(socket.SOL_SOCKET, socket.SO_LINGER, struct.pack("ii", 1, 0))
    client.close()


class Siege:
    """A server under attack: how many sessions and hostile agents there were, the
    agents whose clients vanish before the match ends, and the sockets that stay
    open."""

    def __init__(self, server: Server, sizes: Sizes) -> None:
        self.server = server
        self.port = server.port
        self.sizes = sizes
        self.sessions = 0
        self.agents = 0
        self.vanished: List[int] = []
        self.kept: List[socket.socket] = []
        self.slow: Optional[Slow] = None

    def sessions_left(self) -> int:
        """Returns how many sessions are left."""
        return self.sizes.sessions - self.sessions

    def connect(self, buffer: int = 0) -> socket.socket:
        """A new session; with a size it has a small buffer for what it is sent."""
        client = socket.socket()
        if buffer:
            client.setsockopt(socket.SOL_SOCKET, socket.SO_RCVBUF, buffer)
        client.settimeout(PATIENCE)
        client.connect((HOST, self.port))
        self.sessions += 1
        return client

    def enter(self, buffer: int = 0, vanishes: bool = False) -> socket.socket:
        """A new session that enters the hostile match."""
        client = self.connect(buffer)
        client.sendall(enter(key(HOSTILE, self.agents)))
        if vanishes:
            self.vanished.append(self.agents)
        self.agents += 1
        return client

    def close(self) -> None:
        """Closes all sockets that stayed open."""
        while self.kept:
            self.kept.pop().close()


class Slow(threading.Thread):
    """Two clients that send a line byte by byte, one of which has entered."""

    def __init__(self, siege: Siege) -> None:
        super().__init__(daemon=True)
        self.pause = siege.sizes.between_bytes
        entered_value = siege.enter(vanishes=True)
        hear(entered_value, HERE)
        self.clients = [(entered_value, BYE), (siege.connect(), NO_ENTER)]
        self.fault: Optional[str] = None

    def run(self) -> None:
        try:
            self.send()
        except (FailedCheckError, OSError) as fault:
            self.fault = str(fault)
        for client, _ in self.clients:
            client.close()

    def send(self) -> None:
        for index in range(len(LEAVE)):
            time.sleep(self.pause)
            if any(has_heard(client) for client, _ in self.clients):
                raise FailedCheckError(
                    "an answer or the end came before the line had ended"
                )
            for client, _ in self.clients:
                client.sendall(LEAVE[index : index + 1])
        for client, answer in self.clients:
            hear(client, answer)


def slow_begin(siege: Siege) -> str:
    siege.slow = Slow(siege)
    siege.slow.start()
    return f"two clients send a line by one byte every {siege.sizes.between_bytes:g} s, beside the other attacks"


def slow_end(siege: Siege) -> str:
    if siege.slow is None:
        raise FailedCheckError("they have not begun")
    siege.slow.join()
    require(not siege.slow.fault, siege.slow.fault)
    return "both were answered when the line had ended, and not before"


def half_open(siege: Siege) -> str:
    """Half of them are on the link to the black hole, where the session waits for
    news."""
    for number in range(HALF_OPEN):
        client = siege.enter()
        if number % 2:
            client.sendall(DEPART)
        siege.kept.append(client)
    return f"{HALF_OPEN} clients entered, of which half departed; they read and write no more"


def resets(siege: Siege) -> str:
    """Half of them are on the link to the black hole."""
    for number in range(RESETS):
        departs = number % 2 == 1
        client = siege.enter(vanishes=not departs)
        if departs:
            client.sendall(DEPART)
        wait_for_lines(client, 1 + departs)
        reset(client)
    return f"{RESETS} clients entered, of which half departed, and reset their connections with answers unread"


def connect_silently(siege: Siege, count: int) -> str:
    """They come in bursts, since the system queues only a few."""
    for number in range(count):
        if number % BURST == 0:
            time.sleep(0.01)
        siege.kept.append(siege.connect())
    return f"{count} clients connected and send nothing"


def silent(siege: Siege) -> str:
    """Half of the sessions that are left, but no more than may wait to be let in."""
    return connect_silently(siege, min(WAITING, (siege.sessions_left() - LATER) // 2))


def silent_all(siege: Siege) -> str:
    """All sessions that are left, while the polite clients go on for some time."""
    message = connect_silently(siege, siege.sessions_left())
    time.sleep(3 * siege.sizes.still)
    return message


def garbage(siege: Siege) -> str:
    """Sends each line as the first of a session, and all of them from an admitted
    session with blank lines in between."""
    for line in GARBAGE:
        with siege.connect() as client:
            client.sendall(line + b"\n")
            hear(client, NO_ENTER)
            hear_end(client)
    lines = GARBAGE + [bytes([byte]) for byte in range(256) if byte not in b"\t\n\r "]
    with siege.enter(vanishes=True) as client:
        client.sendall(b"".join(line + b"\n \t\r\n" for line in lines) + LOOK)
        hear(client, HERE + NO_LINE * len(lines) + HERE)
    return f"{len(GARBAGE)} first lines were denied, {len(lines)} later lines were no commands, and a look was answered"


def is_cut_off(client: socket.socket, piece: bytes, count: int) -> None:
    """A client that has not entered is cut off, since its first line is too long,
    whatever it hears of that."""
    heard = b""
    with contextlib.suppress(OSError):
        for _ in range(count):
            client.sendall(piece)
        client.sendall(b"\n")
    with client, contextlib.suppress(OSError):
        heard = client.recv(len(NO_LATE) + 1)
    require(
        heard in (b"", NO_LATE),
        f"who sends too much before it enters is answered {heard!r}",
    )


def flood(siege: Siege) -> str:
    """Every second of them has entered. Half of those end their lines, when all lines
    are there."""
    clients = [siege.enter(vanishes=True) for _ in range(FLOODS // 2)]
    piece = b"a" * min(MIB, siege.sizes.flood)
    count = siege.sizes.flood // len(piece)
    for _ in range(count):
        for client in clients:
            client.sendall(piece)
    for number, client in enumerate(clients):
        if number % 2:
            client.sendall(b"\n")
            hear(client, HERE + NO_LINE)
        client.close()
    for _ in range(FLOODS // 2):
        is_cut_off(siege.connect(), piece, count)
    return f"{FLOODS} lines of {siege.sizes.flood / MIB:g} MiB were no commands, or their clients were cut off"


def taken_unread(clients: Sequence[socket.socket], still: float) -> List[int]:
    """Sends looks without an end; answers how many bytes were taken of each client
    until no more are taken."""
    numbered_value = {client.fileno(): client for client in clients}
    payload = [0] * len(clients)
    poll = select.poll()
    places = {number: index for index, number in enumerate(numbered_value)}
    for number, client in numbered_value.items():
        client.setblocking(False)
        poll.register(number, select.POLLOUT)
    while ready := poll.poll(still * 1000):
        for number, _ in ready:
            position = places[number]
            with contextlib.suppress(BlockingIOError):
                payload[position] += numbered_value[number].send(
                    LOOKS[payload[position] % len(LOOK) :]
                )
            if payload[position] > MAX_UNREAD:
                raise FailedCheckError(
                    f"{MAX_UNREAD // MIB} MiB of looks were taken of a client that reads no answer"
                )
    return payload


def deaf(siege: Siege) -> str:
    """Clients with small buffers that look at a whiteboard with the longest text, and
    read nothing. Half of them then vanish, the others stay."""
    clients = [
        siege.enter(SMALL_BUFFER, vanishes=number < DEAF // 2) for number in range(DEAF)
    ]
    clients[0].sendall(
        spell({"do": "write", "expect": "", "put": "x" * LONGEST_TEXT}).encode() + b"\n"
    )
    hear(clients[0], HERE + WRITTEN)
    duration = taken_unread(clients, siege.sizes.still)
    for client in clients[: DEAF // 2]:
        reset(client)
    siege.kept += clients[DEAF // 2 :]
    return f"{DEAF} clients read nothing; of the looks of each, {min(duration)} to {max(duration)} bytes were taken"


def wrong_keys(siege: Siege) -> str:
    """All sessions that are left; every tenth client has a key that is taken."""
    count = siege.sessions_left()
    for number in range(count):
        is_taken = number % 10 == 0
        with siege.connect() as client:
            client.sendall(
                enter(key(POLITE, number // 10 % 2) if is_taken else f"nobody-{number}")
            )
            hear(client, NO_TAKEN if is_taken else NO_KEY)
            hear_end(client)
    return f"{count} clients with the key of nobody, or of an agent that has entered, were denied"


def beyond(siege: Siege) -> str:
    """Twice as many clients as there are sessions connect and close, and then one
    enters."""
    count = 2 * siege.sizes.sessions
    for _ in range(count):
        socket.create_connection((HOST, siege.port), PATIENCE).close()
    with siege.connect() as client:
        client.sendall(enter(key(HOSTILE, STRANGER)) + LEAVE)
        with client.makefile("rb") as answers:
            heard = answers.readlines()
    if len(heard) != 2 or not heard[0].startswith(b'{"board":') or heard[1] != BYE:
        raise FailedCheckError(f"the client that came after them heard {heard!r}")
    return (
        f"{count} clients connected and closed, and one that came after them was let in"
    )


Attack = Callable[[Siege], str]
# the attacks on one server: each in turn, or one by as many clients as there are
# sessions left
ATTACKS: Dict[str, List[Attack]] = {
    "each": [
        slow_begin,
        half_open,
        resets,
        silent,
        garbage,
        flood,
        deaf,
        wrong_keys,
        beyond,
        slow_end,
    ],
    "silent": [silent_all],
    "keys": [wrong_keys],
}
