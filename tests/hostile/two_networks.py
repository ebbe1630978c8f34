"""Serves a contest to agents on another network: the server in one network namespace,
its agents in a second one.

    sudo python3 -m tests.hostile.two_networks PROGRAM

PROGRAM is the built program. Two namespaces are joined by a virtual cable, `arena serve
--address` listens on the address of the first, for IPv4 and then for IPv6, and the
agents of the team red of examples/contest.toml connect from the second. They must solve
their network; and while the server listens on 127.0.0.1 alone, they must not reach it.
It needs `ip` of Debian's iproute2 and the right to make namespaces. The last line reads
`N passed, M failed`.
"""
import contextlib
import pathlib
import subprocess
import sys
import tempfile
from typing import Iterator, List, Optional

from tests.support.counts import report_counts
from tests.support.servers import Server

TOP = pathlib.Path(__file__).resolve().parents[2]
HERE = "arena-server"
THERE = "arena-agents"
PORT = 4000
PATIENCE = 60
# of each family: the server's address and the agents', with their network
NETWORKS = {"IPv4": ("10.77.0.1", "10.77.0.2", 24), "IPv6": ("fd77::1", "fd77::2", 64)}


def ip(*words: object) -> None:
    subprocess.run(["ip", *map(str, words)], check=True)


def within(namespace: str, *words: object) -> List[str]:
    """The command that runs a command in a namespace."""
    return ["ip", "netns", "exec", namespace, *map(str, words)]


@contextlib.contextmanager
def two_networks() -> Iterator[None]:
    """Two namespaces that a cable joins."""
    products = []
    try:
        for name in (HERE, THERE):
            ip("netns", "add", name)
            products.append(name)
        ip(
            "link",
            "add",
            "arena0",
            "netns",
            HERE,
            "type",
            "veth",
            "peer",
            "name",
            "arena1",
            "netns",
            THERE,
        )
        for name, cable, end in ((HERE, "arena0", 0), (THERE, "arena1", 1)):
            for *addresses, bits in NETWORKS.values():
                extra = ["nodad"] if ":" in addresses[end] else []
                ip(
                    "-n",
                    name,
                    "address",
                    "add",
                    f"{addresses[end]}/{bits}",
                    "dev",
                    cable,
                    *extra,
                )
            ip("-n", name, "link", "set", "lo", "up")
            ip("-n", name, "link", "set", cable, "up")
        yield
    finally:
        for name in products:
            ip("netns", "del", name)


def play(program: str, address: Optional[str], target: str) -> str:
    """The line of the table that the team red gets if its agents connect to this
    address."""
    with tempfile.TemporaryDirectory() as folder:
        words = [
            "serve",
            "examples/contest.toml",
            "--port",
            PORT,
            "--sessions",
            2,
            "--turns",
            3000,
            "--pause",
            1,
            "--gather",
            5000,
            "--grace",
            100,
            "--replay",
            f"{folder}/match",
            *(["--address", address] if address else []),
        ]
        with Server(within(HERE, program, *words), port=PORT) as server:
            agents = [
                subprocess.Popen(
                    within(
                        THERE,
                        sys.executable,
                        "examples/agents/ring.py",
                        target,
                        PORT,
                        f"red-{number}",
                        8,
                    ),
                    cwd=TOP,
                    stdout=subprocess.DEVNULL,
                    stderr=subprocess.DEVNULL,
                )
                for number in range(2)
            ]
            output = server.wait_for_end().texts()[1]
            for agent in agents:
                agent.kill()
                agent.wait()
    return next(line for line in output.splitlines() if " red " in line)


def main() -> int:
    if len(sys.argv) != 2:
        sys.exit(__doc__.strip())
    program = str(pathlib.Path(sys.argv[1]).resolve())
    results = []
    with two_networks():
        for family, (server, _, _) in NETWORKS.items():
            for address in (server, None):
                row = play(program, address, server)
                results.append(("solved" in row) == (address is not None))
                print(
                    f"{family}, listening on {address or '127.0.0.1'}: {' '.join(row.split())}",
                    flush=True,
                )
    return report_counts(results.count(True), results.count(False))


if __name__ == "__main__":
    sys.exit(main())
