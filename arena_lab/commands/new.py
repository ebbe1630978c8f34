"""Writes a folder with which to begin an agent, in the language that you know.

    ./arena-lab new python my-agent
    ./arena-lab new java my-agent
    ./arena-lab new wasm my-agent

The folder has a client, which speaks to the server, and an agent that searches a ring
with it: change it into your own. It also has a test, and a README with the commands to
build, test and play the agent. `wasm` and `wasm-rust` are agents in C and Rust that are
compiled to WebAssembly modules: what `explore` finds of a module is proved of it.
docs/AGENTS.md has the commands of agents and their answers.
"""
import argparse
import pathlib
import shlex
from typing import List

import arena_lab
from arena_lab.play.kits import KITS, Kit, play_command, write_kit
from arena_lab.support.built import TOP


def add_arguments(parser: argparse.ArgumentParser) -> None:
    """Adds the arguments of `new`."""
    languages = ", ".join(
        f"{entry} ({kit.name})" if entry != kit.name.lower() else entry
        for entry, kit in KITS.items()
    )
    parser.add_argument(
        "language", metavar="LANGUAGE", choices=KITS, help=f"one of {languages}"
    )
    parser.add_argument(
        "folder",
        metavar="FOLDER",
        type=pathlib.Path,
        help="a folder that is not there yet",
    )


def run(args: argparse.Namespace) -> int:
    kit = write_kit(args.language, args.folder)
    print(f"{args.folder}: an agent in {kit.name}. Go on there:")
    for line in (f"cd {shlex.quote(str(args.folder))}", *next_commands(kit)):
        print(f"    {line}")
    return 0


def next_commands(kit: Kit) -> List[str]:
    """The commands by which a kit is built, tested and played on a ring of eight nodes,
    in its folder."""
    command = (
        shlex.quote(str(TOP / "arena-lab"))
        if arena_lab.command_name() == arena_lab.IN_CLONE
        else arena_lab.INSTALLED_COMMAND
    )
    words = f'--network ring:8 --command "{play_command(kit)}"'
    explore = (
        f"{command} explore {words}".replace("--command", "--agent")
        if kit.is_module
        else ""
    )
    return list(filter(None, (kit.build, kit.test, f"{command} run {words}", explore)))
