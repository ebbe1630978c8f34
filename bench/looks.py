"""Measures the memory that a server takes for the looks of one agent at a long
whiteboard.

    tools/build               # proves and builds the program, if that is not done yet
    python3 -m bench.looks [--looks N] [--size N]

One agent writes a text of 65,490 bytes (--size) on the whiteboard of its home base.
Then it looks at it as often as its quota of 65,535 lets it (--looks), ten at a time.
The most memory that the server has held is printed before the first look and after each
quarter of them. The program is ./arena, or what ARENA names.
"""
import argparse
import json
import pathlib
import socket
import sys
import tempfile
import time
from typing import Iterator, Tuple

from arena_lab.rules.limits import MAX_BOARD, MAX_QUOTA
from arena_lab.rules.networks import ring
from bench.inputs import LONGEST_TEXT, peak_so_far
from bench.servers import serving
from tests.support.counts import FailedCheckError, require
from tests.support.tournaments import match, write_cup

# looks are said this many at a time
TOGETHER = 10
# the match takes longer than the looks
TURNS = 4_000_000
PAUSE = 1000


class Agent:
    """An agent over TCP."""

    def __init__(self, port: int) -> None:
        self.socket = socket.create_connection(("127.0.0.1", port), 60)
        self.answers = self.socket.makefile("rb")

    def say(self, command: dict, times: int = 1, expected_reply: str = "here") -> None:
        self.socket.sendall((json.dumps(command).encode() + b"\n") * times)
        for _ in range(times):
            answer = json.loads(self.answers.readline() or b"{}")
            require(
                answer.get("ok") == expected_reply,
                f"{command['do']} is answered {str(answer)[:60]}",
            )


def measure(looks: int, size: int) -> Iterator[Tuple[str, float, float]]:
    """What was done, the most memory in MB that the server has held then, and the
    seconds since the first look."""
    with tempfile.TemporaryDirectory() as name:
        folder = pathlib.Path(name)
        write_cup(
            folder,
            [match("red", ring(3), [2], agents=1, quota=MAX_QUOTA, board=MAX_BOARD)],
        )
        with serving(folder, 1, TURNS, PAUSE) as server:
            agent = Agent(server.port)
            agent.say({"do": "enter", "key": "red-0"})
            agent.say(
                {"do": "write", "expect": "", "put": "x" * size},
                expected_reply="written",
            )
            yield "before the looks", peak_so_far(server.child) / 1024, 0.0
            start = time.monotonic()
            count = 0
            for quarter in range(1, 5):
                while count < looks * quarter // 4:
                    together = min(TOGETHER, looks * quarter // 4 - count)
                    agent.say({"do": "look"}, together)
                    count += together
                yield f"{count:,} looks", peak_so_far(
                    server.child
                ) / 1024, time.monotonic() - start


def main(words_given: list) -> int:
    parser = argparse.ArgumentParser(
        prog="python3 -m bench.looks",
        description=__doc__,
        formatter_class=argparse.RawDescriptionHelpFormatter,
    )
    parser.add_argument(
        "--looks",
        type=int,
        default=MAX_QUOTA - 1,
        metavar="N",
        help="how many looks (%(default)s)",
    )
    parser.add_argument(
        "--size",
        type=int,
        default=LONGEST_TEXT,
        metavar="N",
        help="bytes of the text (%(default)s)",
    )
    args = parser.parse_args(words_given)
    try:
        for what, memory, seconds in measure(args.looks, args.size):
            print(f"{what}: {memory:.1f} MB, {seconds:.1f} s", flush=True)
    except (FailedCheckError, OSError, ValueError) as fault:
        sys.exit(str(fault))
    return 0


if __name__ == "__main__":
    sys.exit(main(sys.argv[1:]))
