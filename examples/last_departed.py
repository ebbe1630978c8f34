"""Plays two agents on the built-in network against an adversary that delivers the agent
that departed last.

    python3 examples/last_departed.py [PROGRAM ..]

PROGRAM is `./arena` if no other is named. The adversary chooses each line of the script
by what the agents were sent.
"""
import json
import subprocess
import sys
from typing import List

PROGRAM = sys.argv[1:] or ["./arena"]
ARENA = subprocess.Popen(
    [*PROGRAM, "rehearse", "--interactive"],
    stdin=subprocess.PIPE,
    stdout=subprocess.PIPE,
    text=True,
)
on_links: List[
    str
] = (
    []
)  # the connections whose agents are on a link, in the order in which they departed


def play(line: str) -> None:
    """Plays a line of the script and prints what it sends."""
    print(line, file=ARENA.stdin, flush=True)
    for line_sent in iter(ARENA.stdout.readline, "\n"):
        connection, text = line_sent.split(" ", 1)
        if json.loads(text).get("ok") == "gone":
            on_links.append(connection)
        elif connection in on_links:  # it arrived
            on_links.remove(connection)
        print(line_sent, end="")


def deliver_last() -> None:
    play(f"draw 0 {len(on_links) - 1}")


for connection, key in enumerate(("ka", "kb")):
    play(f'{connection} {{"do":"enter","key":"{key}"}}')
    play(f'{connection} {{"do":"depart","port":0}}')
deliver_last()
deliver_last()
