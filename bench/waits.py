"""Measures what an agent learns by waiting: how many turns its moves take while the
other agent of its match stands at home, was destroyed, or is on a held link.

    tools/build               # proves and builds the program, if that is not done yet
    python3 -m bench.waits [--moves N] [--pause MS]

Two agents are served on a ring of eight nodes. The first stands, or departs for the
black hole or over a held link; then the second goes to a node and back, N moves in all,
and each move is timed. Turns are times divided by the pause. Under the adaptive
schedule the rows differ; under the oblivious one they are equal within their errors,
with and without delays. The program is ./arena, or what ARENA names.
"""
import argparse
import json
import pathlib
import socket
import statistics
import sys
import tempfile
import time
from typing import Dict, List, NamedTuple, TextIO, Tuple

from arena_lab.rules.delays import Delays
from arena_lab.rules.model import Place
from arena_lab.rules.networks import ring
from bench.servers import serving
from tests.support.counts import FailedCheckError, require
from tests.support.tournaments import match, write_cup

NODES = 8
TURNS = 1_000_000
LIMIT = 60
# where the first agent is, with the black hole and the held links of the match
PLACES: Dict[str, Tuple[int, List[Place]]] = {
    "stands": (1, []),
    "destroyed": (1, []),
    "held": (4, [(0, 0)]),
}
SCHEDULES = {"adaptive": None, "oblivious": Delays(0, 1), "with delays": Delays(5, 32)}


class Agent(NamedTuple):
    """An agent that has entered."""

    connection: socket.socket
    lines: TextIO

    def says(self, **command: object) -> dict:
        """Sends a command and returns the reply."""
        self.connection.sendall(json.dumps(command).encode() + b"\n")
        return self.hears()

    def hears(self) -> dict:
        line = self.lines.readline()
        require(line, "a session ended before its time")
        return json.loads(line)

    def goes(self, port: int) -> None:
        """Departs and waits for its arrival."""
        if (
            self.says(do="depart", port=port) != {"ok": "gone"}
            or self.hears().get("ok") != "here"
        ):
            raise FailedCheckError("an agent could not move")


def enter_agent(port: int, key: str) -> Agent:
    connection = socket.create_connection(("127.0.0.1", port), timeout=LIMIT)
    connection.setsockopt(socket.IPPROTO_TCP, socket.TCP_NODELAY, 1)
    agent = Agent(connection, connection.makefile("r"))
    require(
        agent.says(do="enter", key=key).get("ok") == "here",
        f"the agent with the key {key} could not enter",
    )
    return agent


def waits(place_name: str, schedule: str, moves: int, pause: int) -> List[float]:
    """Returns how many turns each move of the second agent took."""
    with tempfile.TemporaryDirectory() as name:
        folder = pathlib.Path(name)
        hole, held_links = PLACES[place_name]
        write_cup(
            folder,
            [match("red", ring(NODES), [hole], board=8, held=held_links)],
            SCHEDULES[schedule],
            "07" * 32,
        )
        with serving(folder, 8, TURNS, pause) as server:
            first = enter_agent(server.port, "red-0")
            second = enter_agent(server.port, "red-1")
            if place_name != "stands":
                first.says(do="depart", port=0)
                time.sleep(50 * pause / 1000)
            turn_counts = []
            for move in range(moves):
                began = time.monotonic()
                second.goes(1 if move % 2 == 0 else 0)
                turn_counts.append((time.monotonic() - began) * 1000 / pause)
            first.connection.close()
            second.connection.close()
            return turn_counts


def main(arguments: List[str]) -> int:
    parser = argparse.ArgumentParser(
        description=__doc__, formatter_class=argparse.RawDescriptionHelpFormatter
    )
    parser.add_argument(
        "--moves", type=int, default=400, help="how many moves are timed (default: 400)"
    )
    parser.add_argument(
        "--pause",
        type=int,
        default=5,
        help="milliseconds before each turn (default: 5)",
    )
    args = parser.parse_args(arguments)
    print(
        "| schedule | the other agent | turns of a move | error | longest |\n| --- | --- | --- | --- | --- |"
    )
    for schedule in SCHEDULES:
        for place_name in PLACES:
            try:
                turn_counts = waits(place_name, schedule, args.moves, args.pause)
            except (FailedCheckError, OSError) as fault:
                print(f"{schedule}, {place_name}: {fault}", file=sys.stderr)
                return 1
            error = statistics.stdev(turn_counts) / len(turn_counts) ** 0.5
            mean = statistics.mean(turn_counts)
            print(
                f"| {schedule} | {place_name} | {mean:.2f} | {error:.2f} | {max(turn_counts):.1f} |",
                flush=True,
            )
    return 0


if __name__ == "__main__":
    sys.exit(main(sys.argv[1:]))
