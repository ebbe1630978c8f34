"""Plays a contest while strangers flood the server with connections that say nothing.

    python3 -m tests.hostile.floods PROGRAM [RATE]

RATE connections a second, 3,000 if it is not given, come from 200 addresses of
127.0.1.0/24, and each is held until the server cuts it off or 2,000 newer ones are
held. Meanwhile 100 agents, two a team, whose first lines come 0.3 seconds after they
connect, search rings of eight nodes by examples/agents/ring.py. It prints how many
connections came, how many teams solved, how often agents tried to enter, and the
slowest answer. The last line reads `N passed, M failed`: a team that did not solve has
failed, and so has a flood that ended before. It takes some seconds.
"""
import collections
import contextlib
import multiprocessing
import os
import pathlib
import socket
import struct
import subprocess
import sys
import tempfile
import threading
import time
from typing import Any, Deque, Dict, List

from arena_lab.rules.networks import ring as ring_of
from tests.support.cases import raise_descriptors
from tests.support.counts import report_counts
from tests.support.servers import Server
from tests.support.tournaments import match, write_cup

# agents import their client as it stands beside them
sys.path.insert(
    0, str(pathlib.Path(__file__).resolve().parents[2] / "examples" / "agents")
)

import ring  # noqa: E402
from client import Agent, MatchOver  # noqa: E402

TEAMS = 50
NODES = 8
HELD = 2000
ADDRESSES = 200
# seconds between an agent's connection and its first line
SLOW = 0.3
# seconds within which all agents have played
PATIENCE = 60
# a socket that is closed so is forgotten by both ends at once
AT_ONCE = struct.pack("ii", 1, 0)


class TimedAgent(Agent):
    """An agent that notes how long each answer takes, and how often it asked to
    enter."""

    slowest = 0.0
    tries = 0

    def _ask(self, command: Dict[str, Any]) -> Dict[str, Any]:
        start = time.monotonic()
        TimedAgent.tries += command["do"] == "enter"
        try:
            return super()._ask(command)
        finally:
            TimedAgent.slowest = max(TimedAgent.slowest, time.monotonic() - start)


def flood(port: int, rate: float, over: Any, count: Any) -> None:
    """Connects and says nothing, until it is over."""
    held_links: Deque[socket.socket] = collections.deque()
    start = time.monotonic()
    arrivals = 0
    while not over.is_set():
        if arrivals > (time.monotonic() - start) * rate:
            time.sleep(0.001)
            continue
        client = socket.socket()
        client.setsockopt(socket.SOL_SOCKET, socket.SO_LINGER, AT_ONCE)
        client.bind((f"127.0.1.{arrivals % ADDRESSES + 1}", 0))
        client.setblocking(False)
        client.connect_ex(("127.0.0.1", port))
        held_links.append(client)
        arrivals += 1
        if len(held_links) > HELD:
            held_links.popleft().close()
    count.value = arrivals


def play(port: int, key: str) -> None:
    agent = TimedAgent.connect("127.0.0.1", port)
    time.sleep(SLOW)
    try:
        with contextlib.suppress(MatchOver):
            ring.search(agent, key, NODES)
    finally:
        agent.close()


def main(words: List[str]) -> int:
    if len(words) not in (1, 2):
        sys.exit((__doc__ or "").strip())
    raise_descriptors()
    program = os.path.abspath(words[0])
    rate = float(words[1]) if len(words) > 1 else 3000.0
    with tempfile.TemporaryDirectory() as name:
        folder = pathlib.Path(name)
        write_cup(
            folder,
            [
                match(f"t{team}", ring_of(NODES), [team % 7 + 1], quota=400)
                for team in range(TEAMS)
            ],
            seed=os.urandom(32).hex(),
        )
        words = [
            program,
            "serve",
            "cup.toml",
            "--sessions",
            100,
            "--gather",
            60_000,
            "--early",
        ]
        server = Server(words, folder, stderr=subprocess.DEVNULL)
        over = multiprocessing.Event()
        count = multiprocessing.Value("l", 0)
        stranger = multiprocessing.Process(
            target=flood, args=(server.port, rate, over, count)
        )
        start = time.monotonic()
        stranger.start()
        time.sleep(2)
        agents = [
            threading.Thread(
                target=play, args=(server.port, f"t{team}-{agent}"), daemon=True
            )
            for team in range(TEAMS)
            for agent in (0, 1)
        ]
        for agent in agents:
            agent.start()
        until = time.monotonic() + PATIENCE
        for agent in agents:
            agent.join(max(0.0, until - time.monotonic()))
        over.set()
        stranger.join()
        took = time.monotonic() - start
        server.child.terminate() if any(agent.is_alive() for agent in agents) else None
        rows = server.wait_for_end().texts()[1].splitlines()[1:]
    solved_count = sum(row.split()[2] in ("solved", "guess") for row in rows)
    print(
        f"{count.value} connections in {took:.1f} s; {solved_count} of {TEAMS} teams solved; "
        f"{TimedAgent.tries} tries of {2 * TEAMS} agents to enter; the slowest answer took {TimedAgent.slowest:.2f} s"
    )
    return report_counts(solved_count, TEAMS - solved_count + (stranger.exitcode != 0))


if __name__ == "__main__":
    sys.exit(main(sys.argv[1:]))
