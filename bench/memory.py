"""Measures where the memory of a server goes while sessions are open.

    tools/build               # proves and builds the program, if that is not done yet
    python3 -m bench.memory [--sessions N]

The agents of N sessions (256), in four matches on a torus of sixteen nodes, enter and
look fifty times each. A row of the table has what the memory is for, how many KiB of it
the server held before anybody came and while all sessions were open, and how many more
these are a session, by /proc/PID/smaps. The stack of a thread is a mapping that lies
above a few pages that nobody may touch. The program is ./arena, or what ARENA names.
"""
import argparse
import pathlib
import re
import sys
import tempfile
import time
from typing import Dict

from arena_lab.rules.networks import text_of, torus
from bench.inputs import key, tournament
from bench.looks import Agent
from bench.servers import prepare, serving
from tests.support.counts import FailedCheckError

MATCHES = 4
AGENTS = 64
LOOKS = 50
BOARD = 64
# the match takes longer than the looks
TURNS = 600_000
PAUSE = 1
STACKS = "stacks of threads"
HEAP = "the allocator's heap"
PIECES = "the allocator's other pieces"
REST = "the program, its libraries and the rest"
# more bytes than lie below a stack; what the allocator keeps for later has more
GUARD = 1 << 20
# the head of a mapping, and how much of it the memory holds
HEAD = re.compile(r"([0-9a-f]+)-([0-9a-f]+) (\S+) \S+ \S+ \S+ *(.*)")
RSS_LINE = re.compile(r"Rss: +(\d+) kB")


def parts(smaps: str) -> Dict[str, int]:
    """Returns how many KiB a program holds for what, by what the system says of its
    memory."""
    sizes = dict.fromkeys((STACKS, HEAP, PIECES, REST), 0)
    what = REST
    guard = ""
    for line in smaps.splitlines():
        head = HEAD.fullmatch(line)
        match = RSS_LINE.fullmatch(line)
        if head:
            begin, end, access, name = head.groups()
            what = HEAP if name == "[heap]" else REST
            if not name:
                what = STACKS if begin == guard else PIECES
            is_guard = int(end, 16) - int(begin, 16) < GUARD
            guard = end if is_guard and access.startswith("---") else ""
        elif match:
            sizes[what] += int(match[1])
    return sizes


def measure(sessions: int) -> Dict[str, Dict[str, int]]:
    """Measures a server's memory by purpose, before and with `sessions` sessions."""
    with tempfile.TemporaryDirectory() as name:
        folder = pathlib.Path(name)
        (folder / "torus.toml").write_text(text_of(torus(4, 4)))
        (folder / "cup.toml").write_text(
            tournament(str(folder / "torus.toml"), MATCHES, AGENTS, BOARD)
        )
        with serving(folder, sessions, TURNS, PAUSE) as server:
            smaps = pathlib.Path(f"/proc/{server.child.pid}/smaps")
            # it makes the matches once it listens
            time.sleep(1)
            before = parts(smaps.read_text())
            agents = []
            for session in range(sessions):
                agent = Agent(server.port)
                agents.append(agent)
                agent.say({"do": "enter", "key": key(*divmod(session, AGENTS))})
                agent.say({"do": "look"}, LOOKS)
            return {"before": before, "open": parts(smaps.read_text())}


def main(words_given: list) -> int:
    parser = argparse.ArgumentParser(
        prog="python3 -m bench.memory",
        description=__doc__,
        formatter_class=argparse.RawDescriptionHelpFormatter,
    )
    sessions_in_all = MATCHES * AGENTS
    parser.add_argument(
        "--sessions",
        type=int,
        default=sessions_in_all,
        choices=range(1, sessions_in_all + 1),
        metavar="N",
        help="how many sessions (%(default)s)",
    )
    sessions = parser.parse_args(words_given).sessions
    prepare(2 * sessions_in_all)
    try:
        sizes = measure(sessions)
    except (FailedCheckError, OSError, ValueError) as fault:
        sys.exit(str(fault))
    print(f"| KiB | before | with {sessions} sessions | a session |")
    print("| --- | --- | --- | --- |")
    for column in sizes.values():
        column["all"] = sum(column.values())
    for what, before in sizes["before"].items():
        size = sizes["open"][what]
        print(f"| {what} | {before:,} | {size:,} | {(size - before) / sessions:.1f} |")
    return 0


if __name__ == "__main__":
    sys.exit(main(sys.argv[1:]))
