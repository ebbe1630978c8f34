"""What tests of modules share: a stand-in for the player of modules, the sample module,
and one that sleeps."""
import pathlib
import sys
import unittest
from unittest import mock

from arena_lab.play.teams import OUTSIDE, AgentWords
from arena_lab.support import built
from tests.support.matches import AGENTS
from tests.support.wasm_encoding import I32, Function, constant, module

MODULE = AgentWords(OUTSIDE, f"{AGENTS / 'wasm' / 'ring.wasm'}:{{nodes}}")
# a module that sleeps once and accuses the wrong link, and the same in Python
SLEEPER = module(
    [
        Function(
            [], [], b"\x10\0\x1a\x10\1\x1a" + constant(I32, 0) + b"\x10\2\x1a", "run"
        )
    ],
    ["enter", "sleep", "accuse"],
)
# a module that leaves at once, and one that goes to a node that is safe and accuses the
# other link there
LEAVER = module([Function([], [], b"\x10\0\x1a\x10\1\x1a", "run")], ["enter", "leave"])
WALKER = module(
    [
        Function(
            [],
            [],
            b"\x10\0\x1a"
            + constant(I32, 0)
            + b"\x10\1\x1a"
            + constant(I32, 1)
            + b"\x10\2\x6b\x10\3\x1a",
            "run",
        )
    ],
    ["enter", "depart", "came", "accuse"],
)
SLEEPS = f"""
import sys, time
sys.path.insert(0, {str(AGENTS)!r})
import client

def search(agent, key):
    agent.enter(key)
    time.sleep(0.1)
    agent.accuse(0)

client.play("", search, 0)
"""
# a stand-in for the module player: runs the sample module's search in Python, or the
# sleeping agent without an argument, and prints the warning of unproved builds
STAND_IN = f"""#!{sys.executable}
import os
import sys

print({built.UNPROVED_LINE!r}, file=sys.stderr, flush=True)
host, port, key, *options, option, word = sys.argv[1:]
file, _, nodes = word.partition(":")
if options[:1] != ["--spurious-wakeups"] or option != "--module" or open(file, "rb").read(4) != b"\\0asm":
    sys.exit(f"bhs_player: {{file}}: head at byte 0")
words = [{str(AGENTS / 'ring.py')!r}, host, port, key, nodes] if nodes else ["-c", {SLEEPS!r}, host, port, key]
os.execv(sys.executable, [sys.executable, *words])
"""


def play_by_stand_in(test: unittest.TestCase, folder: pathlib.Path) -> None:
    """Has a stand-in for the player play modules in a test."""
    path = folder / "player"
    path.write_text(STAND_IN, encoding="utf-8")
    path.chmod(0o755)
    test.enterContext(mock.patch.object(built, "player", lambda: path))
