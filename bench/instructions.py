"""Counts the instructions that programs run on the same inputs. Other work on the
machine does not change the counts.

    python3 -m bench.instructions [PROGRAM [OTHER]] [--peer PATH] [--small]
    python3 -m bench.instructions --kept [PROGRAM]

A seeded generator makes inputs of version 1, which older builds and a peer take too:

- A script of 16 matches of 16 agents has some 30,000 commands and draws.
- A complete network has 256 nodes.
- The replay `moves` has the most events that version 1 allows, 32,033, of 16 agents
  that walk by chance.
- In the replay `texts` 16 agents look at a whiteboard of 1,024 bytes, not all ASCII.

Valgrind's callgrind counts the instructions of `rehearse` on the script, of `check` on
the network, and of `judge`, `explain` and `twin` on both replays. A row has the
millions of instructions of PROGRAM. If an older build OTHER is named, or by --peer a
plain program with the same commands, the row has their millions too, and PROGRAM
divided by each. With --small the script is a tenth as long, the network has 64 nodes,
and an agent has a tenth of the commands. The program must be built by tools/build, as
Valgrind runs no build without a proof; it is Debian's package valgrind.

With --kept the small inputs are counted and compared with bench/instructions.toml. A
run that takes 3 % more instructions than are kept there fails: make it faster, or raise
the number and say why. The last line reads `N passed, M failed`.
"""
import argparse
import pathlib
import random
import re
import shlex
import shutil
import subprocess
import sys
import tempfile
import tomllib
from typing import Callable, Dict, Iterator, List, NamedTuple, Sequence

from arena_lab.rules.limits import MAX_TEXT, SMALL_QUOTA
from arena_lab.rules.model import AWAY, Match, Object, Setup, spell
from arena_lab.rules.networks import text_of, torus
from bench import compare, rehearse
from bench.inputs import tournament
from tests.support.counts import SKIPPED, report_counts

TOP = pathlib.Path(__file__).resolve().parent.parent
PROGRAM = TOP / "crates" / "bhs_main" / "out" / "bhs_main"
VALGRIND = "valgrind"
# the millions of instructions that are kept of each run on small inputs, and how many
# times as many pass
RECORD_FILE = pathlib.Path(__file__).with_name("instructions.toml")
MAX_RATIO = 1.03
COUNT_LINE = re.compile(r"^==\d+== Collected : (\d+)$", re.MULTILINE)
SEED = 20_261_128
MATCHES = AGENTS = 16
SIDE = 8
BOARD = 1024
# the black hole of the replays, and that of their twins; nobody goes to either
HOLE = SIDE * SIDE - 2
TWIN = SIDE * SIDE - 1
EXPLAINED = 3
TEXT = "x" * 1000 + "é" * 12

Play = Callable[[Match, int], None]


class Size(NamedTuple):
    """How large the inputs are: the bytes of the script, the nodes of the network, and
    the commands of an agent."""

    script: int
    nodes: int
    commands: int


WHOLE = Size(MAX_TEXT * 3 // 4, 256, SMALL_QUOTA)
SMALL = Size(MAX_TEXT * 3 // 40, 64, SMALL_QUOTA // 10)


class Work(NamedTuple):
    """What is counted: the words of a run, and its standard input."""

    title: str
    words: List[str]
    source: str = "empty"


def entered_match() -> Match:
    """A match on a torus that all agents have entered."""
    match = Match(
        Setup(
            SIDE * SIDE,
            torus(SIDE, SIDE).links,
            0,
            [HOLE],
            AGENTS,
            SMALL_QUOTA,
            BOARD,
            [],
        )
    )
    for agent in range(AGENTS):
        match.reply_to(agent, {"do": "enter"})
    return match


def moves(match: Match, commands: int) -> None:
    """In each round all agents depart, and arrive in an order of their own."""
    rng = random.Random(SEED)
    for _ in range(commands):
        for agent in range(AGENTS):
            far = match.far[match.agents[agent].node]
            ports = [port for port in far if far[port][0] not in (HOLE, TWIN)]
            match.reply_to(agent, {"do": "depart", "port": rng.choice(ports)})
        for agent in rng.sample(range(AGENTS), AGENTS):
            match.deliver(agent)


def texts(match: Match, commands: int) -> None:
    """One agent writes, and then all look; of 50 commands one is a write that comes too
    late."""
    rng = random.Random(SEED)
    match.reply_to(0, {"do": "write", "expect": "", "put": TEXT})
    for number in range(commands - 1):
        for agent in range(AGENTS):
            late = {"do": "write", "expect": str(number), "put": TEXT[:100]}
            match.reply_to(agent, late if rng.random() < 0.02 else {"do": "look"})


def replay(play: Play, commands: int) -> Iterator[str]:
    """The lines of a replay of version 1, in which all agents leave at last."""
    match = entered_match()
    play(match, commands)
    assert not any(agent.standing == AWAY for agent in match.agents)
    for agent in range(AGENTS):
        match.reply_to(agent, {"do": "leave"})
    match.close()
    head = {
        name: value
        for name, value in match.head().items()
        if name not in ("dark", "holes")
    }
    lines: List[Object] = [
        {**head, "replay": 1, "hole": HOLE},
        *match.log,
        {"end": len(match.log)},
    ]
    return (spell(line) + "\n" for line in lines)


def write_inputs(folder: pathlib.Path, size: Size) -> List[Work]:
    """Writes the inputs, and gives what is counted on them."""
    script, lines = rehearse.script(size.script, MATCHES)
    files = {
        "script": script,
        "torus.toml": text_of(torus(SIDE, SIDE)),
        "t.toml": tournament("torus.toml", MATCHES, AGENTS, BOARD, 1),
        "complete.toml": compare.complete(size.nodes),
        "c.toml": tournament("complete.toml", 1, 1, BOARD, 1),
        "moves": "".join(replay(moves, size.commands)),
        "texts": "".join(replay(texts, size.commands)),
        "empty": "",
    }
    for name, text in files.items():
        (folder / name).write_text(text)
    return [
        Work(f"`rehearse`, {lines:,} lines", ["rehearse", "t.toml"], "script"),
        Work(f"`check`, {size.nodes} nodes", ["check", "c.toml"]),
        *(
            Work(f"`{words[0]}`, {name}", [words[0], name, *words[1:]])
            for name in ("moves", "texts")
            for words in (["judge"], ["explain", str(EXPLAINED)], ["twin", str(TWIN)])
        ),
    ]


def has_valgrind() -> bool:
    return shutil.which(VALGRIND) is not None


def count_instructions(program: str, work: Work, folder: pathlib.Path) -> int:
    """Returns how many instructions a run takes."""
    words = [
        VALGRIND,
        "--tool=callgrind",
        "--callgrind-out-file=/dev/null",
        program,
        *work.words,
    ]
    with open(folder / work.source, "rb") as source_file:
        result = subprocess.run(
            words,
            stdin=source_file,
            stdout=subprocess.DEVNULL,
            stderr=subprocess.PIPE,
            cwd=folder,
            text=True,
        )
    match = COUNT_LINE.search(result.stderr)
    if result.returncode != 0 or not match:
        raise SystemExit(
            f"{shlex.join(words)}: status {result.returncode}\n{result.stderr}"
        )
    return int(match[1])


def row(work: Work, counts: Sequence[int]) -> str:
    """Returns a row of the table: the program's count, and for each other program its
    count and the ratio."""
    cells = [
        cell
        for count in counts[1:]
        for cell in (f"{count / 1e6:,.1f}", f"{counts[0] / count:.2f}")
    ]
    return f"| {' | '.join([work.title, f'{counts[0] / 1e6:,.1f}', *cells])} |"


def risen(counts: Dict[str, float], record: Dict[str, float]) -> List[str]:
    """Returns a line for each run whose millions of instructions exceed the recorded
    number."""
    return [
        f"{title} takes {count:.2f} million instructions, and {record.get(title, 0):.2f} "
        f"are kept: see {RECORD_FILE.name}"
        for title, count in counts.items()
        if count > MAX_RATIO * record.get(title, 0)
    ]


def compare_kept(program: str) -> int:
    """Compares a program with what is kept; gives the exit status."""
    record = tomllib.loads(RECORD_FILE.read_text(encoding="utf-8"))
    with tempfile.TemporaryDirectory() as name:
        folder = pathlib.Path(name)
        counts = {
            work.title.replace("`", ""): count_instructions(program, work, folder) / 1e6
            for work in write_inputs(folder, SMALL)
        }
    for title, count in counts.items():
        print(f"{title}: {count:.2f} million instructions", flush=True)
    wrong = risen(counts, record)
    for line in wrong:
        print(f"FAILED {line}")
    return report_counts(len(counts) - len(wrong), len(wrong))


def given_words(words: Sequence[str]) -> argparse.Namespace:
    parser = argparse.ArgumentParser(
        prog="python3 -m bench.instructions",
        description=__doc__,
        formatter_class=argparse.RawDescriptionHelpFormatter,
    )
    parser.add_argument(
        "program", nargs="?", type=pathlib.Path, default=PROGRAM, help="a built program"
    )
    parser.add_argument(
        "other", nargs="?", type=pathlib.Path, help="an older build of it"
    )
    parser.add_argument(
        "--peer",
        type=pathlib.Path,
        metavar="PATH",
        help="a plain program with the same commands",
    )
    parser.add_argument(
        "--small", action="store_true", help="on inputs of a tenth of the size"
    )
    parser.add_argument(
        "--kept",
        action="store_true",
        help=f"compare with {RECORD_FILE.name}, on small inputs",
    )
    return parser.parse_args(words)


def main(words: Sequence[str]) -> int:
    args = given_words(words)
    named_programs = {"program": args.program, "other": args.other, "peer": args.peer}
    programs = {
        name: str(path.resolve()) for name, path in named_programs.items() if path
    }
    for program in programs.values():
        if not pathlib.Path(program).exists():
            raise SystemExit(f"there is no program {program}: tools/build builds it")
    if args.kept and not has_valgrind():
        print(f"{SKIPPED}bench.instructions: Debian's valgrind is not installed")
        return report_counts(0, 0)
    if not has_valgrind():
        raise SystemExit("valgrind is missing: install Debian's package valgrind")
    if args.kept:
        return compare_kept(programs["program"])
    head = [
        "millions of instructions",
        *(cell for name in programs for cell in (name, "ratio")),
    ]
    head.remove("ratio")
    print(f"| {' | '.join(head)} |\n|{' --- |' * len(head)}", flush=True)
    with tempfile.TemporaryDirectory() as name:
        folder = pathlib.Path(name)
        for work in write_inputs(folder, SMALL if args.small else WHOLE):
            print(
                row(
                    work,
                    [
                        count_instructions(program, work, folder)
                        for program in programs.values()
                    ],
                ),
                flush=True,
            )
    return 0


if __name__ == "__main__":
    sys.exit(main(sys.argv[1:]))
