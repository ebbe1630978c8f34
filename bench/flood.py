"""Floods a contest with clients that have no key, and measures how long honest agents
wait for their answers.

    tools/build               # proves and builds the program, if that is not done yet
    python3 -m bench.flood [--teams N] [--nodes N] [--rate R] [--turns K] [--pause MS]

Teams of two agents each (`examples/agents/ring.py`) search a ring, 50 teams by default.
Meanwhile R clients a second connect, 500 by default: of three one says nothing, one
half a line, and one a wrong key, and each stays until the server closes it or four
seconds have passed. How long an agent waits is measured for each of its commands, up to
the first line of the answer, and once for its enter, from before it connects. Then the
same is played without the flood. A line for each says how many teams solved their
networks, and how long the slowest enter, the slowest command, and 99 of 100 commands
took. The program is ./arena, or what ARENA names.
"""
import argparse
import concurrent.futures
import importlib
import multiprocessing
import pathlib
import selectors
import socket
import sys
import tempfile
import threading
import time
from typing import Any, Dict, List, NamedTuple, Tuple

from arena_lab.rules.networks import ring
from bench.servers import MAX_SESSIONS, prepare, serving
from tests.support.counts import FailedCheckError
from tests.support.tournaments import match, write_cup
from arena_lab.play.agent_files import client_module

client = client_module()
search = importlib.import_module("ring").search

HOST = "127.0.0.1"
QUOTA = 1000
BOARD = 64
# teams whose agents share a process
SHARE = 5
# seconds that a client of the flood stays at most
STAYS = 4.0
HALF_LINES = (b"", b'{"do":"enter","key"', b'{"do":"enter","key":"nobody"}\n')


class Rules(NamedTuple):
    """Settings shared by both contests."""

    teams: int
    nodes: int
    turns: int
    pause: int


class Waits(NamedTuple):
    """How many seconds agents waited for their enters, and for their other commands."""

    enters: List[float]
    other_waits: List[float]

    def add(self, added_waits: "Waits") -> None:
        self.enters.extend(added_waits.enters)
        self.other_waits.extend(added_waits.other_waits)


class TimedAgent(client.Agent):
    """An agent that notes how long its commands take."""

    def __init__(self, lines: Any) -> None:
        super().__init__(lines)
        self.waits: List[float] = []

    def _ask(self, command: Dict[str, Any]) -> Dict[str, Any]:
        start = time.monotonic()
        try:
            return super()._ask(command)
        finally:
            self.waits.append(time.monotonic() - start)


def play(port: int, key: str, nodes: int) -> Waits:
    """Returns how long an agent waited."""
    start = time.monotonic()
    agent = TimedAgent.connect(HOST, port)
    connect_seconds = time.monotonic() - start
    try:
        search(agent, key, nodes)
    except client.Refused:
        pass
    finally:
        agent.close()
    return Waits([connect_seconds + agent.waits[0]], agent.waits[1:])


def share(port: int, nodes: int, keys: List[str]) -> Waits:
    """Returns how long some agents waited, each in a thread of its own."""
    all_waits = Waits([], [])
    with concurrent.futures.ThreadPoolExecutor(len(keys)) as pool:
        for waits in pool.map(lambda key: play(port, key, nodes), keys):
            all_waits.add(waits)
    return all_waits


def flood(port: int, rate: float, stop: Any, count: Any) -> None:
    """Connects this often a second, and counts how often it did."""
    selector = selectors.DefaultSelector()
    waiting: List[Tuple[float, socket.socket]] = []
    start = time.monotonic()
    count_sent = 0
    while not stop.is_set():
        now = time.monotonic()
        while count_sent < (now - start) * rate:
            waiting.append(
                (
                    now,
                    stranger(port, HALF_LINES[count_sent % len(HALF_LINES)], selector),
                )
            )
            count_sent += 1
        count.value = count_sent
        for key, _ in selector.select(0.002):
            connection = key.fileobj
            if not heard(connection):
                selector.unregister(connection)
                connection.close()
        while waiting and waiting[0][0] + STAYS < now:
            _, client = waiting.pop(0)
            if client.fileno() >= 0:
                selector.unregister(client)
                client.close()


def stranger(port: int, data: bytes, selector: selectors.BaseSelector) -> socket.socket:
    """A client of the flood."""
    client = socket.socket()
    client.setblocking(True)
    client.settimeout(STAYS)
    try:
        client.connect((HOST, port))
        client.sendall(data)
    except OSError:
        pass
    client.setblocking(False)
    selector.register(client, selectors.EVENT_READ)
    return client


def heard(client: Any) -> bool:
    """Returns whether a client is still connected."""
    try:
        return bool(client.recv(4096))
    except OSError:
        return False


def contest(rules: Rules, rate: float) -> Tuple[str, float, Waits]:
    """The table of a contest under a flood, how many clients a second it had, and how
    long the agents waited."""
    keys = [f"t{team}-{agent}" for team in range(rules.teams) for agent in range(2)]
    shares = [
        keys[index : index + 2 * SHARE] for index in range(0, len(keys), 2 * SHARE)
    ]
    with tempfile.TemporaryDirectory() as folder_name:
        folder = pathlib.Path(folder_name)
        write_cup(
            folder,
            [
                match(
                    f"t{team}",
                    ring(rules.nodes),
                    [rules.nodes // 2],
                    quota=QUOTA,
                    board=BOARD,
                )
                for team in range(rules.teams)
            ],
            seed="07" * 32,
        )
        with serving(
            folder, MAX_SESSIONS, rules.turns, rules.pause, "--early"
        ) as server:
            port = server.port
            stop = multiprocessing.Event()
            count = multiprocessing.Value("q", 0)
            flooding = multiprocessing.Process(
                target=flood, args=(port, rate, stop, count), daemon=True
            )
            flooding.start()
            time.sleep(1.0 if rate else 0.0)
            start = time.monotonic()
            before = count.value
            all_waits = Waits([], [])
            table: List[str] = []
            reading = threading.Thread(
                target=lambda: table.append(server.child.stdout.read().decode())
            )
            reading.start()
            with concurrent.futures.ProcessPoolExecutor(len(shares)) as pool:
                for waits in pool.map(
                    share, [port] * len(shares), [rules.nodes] * len(shares), shares
                ):
                    all_waits.add(waits)
            had = (count.value - before) / (time.monotonic() - start)
            stop.set()
            flooding.join()
            reading.join()
    return table[0], had, all_waits


def summary_line(rules: Rules, rate: float) -> str:
    """A line on a contest."""
    table, had, waits = contest(rules, rate)
    solved_count = sum(row.split()[2] == "solved" for row in table.splitlines()[1:])
    waits_sorted = sorted(waits.other_waits)
    return (
        f"{had:.0f} strangers a second: {solved_count} of {rules.teams} teams solved their networks; the slowest enter "
        f"took {1000 * max(waits.enters):.0f} ms, the slowest of {len(waits_sorted)} commands "
        f"{1000 * waits_sorted[-1]:.0f} ms, "
        f"99 of 100 at most {1000 * waits_sorted[len(waits_sorted) * 99 // 100]:.1f} ms"
    )


def main(arguments: List[str]) -> int:
    parser = argparse.ArgumentParser(
        description=__doc__, formatter_class=argparse.RawDescriptionHelpFormatter
    )
    parser.add_argument(
        "--teams", type=int, default=50, help="teams of two agents (default: 50)"
    )
    parser.add_argument(
        "--nodes", type=int, default=16, help="nodes of the ring (default: 16)"
    )
    parser.add_argument(
        "--rate", type=float, default=500, help="strangers a second (default: 500)"
    )
    parser.add_argument(
        "--turns", type=int, default=100_000, help="turns of a match (default: 100,000)"
    )
    parser.add_argument(
        "--pause",
        type=int,
        default=5,
        help="milliseconds before each turn (default: 5)",
    )
    args = parser.parse_args(arguments)
    prepare(8192)
    rules = Rules(args.teams, args.nodes, args.turns, args.pause)
    try:
        for rate in (args.rate, 0.0):
            print(summary_line(rules, rate), flush=True)
    except FailedCheckError as fault:
        sys.exit(str(fault))
    return 0


if __name__ == "__main__":
    sys.exit(main(sys.argv[1:]))
