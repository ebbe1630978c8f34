"""Times the built program on the largest replays, alone or beside another build.

    tools/build               # proves and builds the program, if that is not done yet
    python3 -m bench.replays [PROGRAM [OTHER]] [--rounds N]

Writes replays of matches that have ended:

- small moves: the largest log that files of the earlier versions allow, 128,129 events:
  64 agents that walk until their quotas are used up;
- moves: the same with the largest quota, 8,388,609 events, the largest log that the
  limits allow;
- whiteboards: 64 agents that write the longest texts, as long as a line may be, look at
  them, and wipe them;
- long lines: writes as long as a line may be onto small whiteboards, which are refused
  and kept in the log. Of these two a match may have some 650 times as many commands,
  and a replay of 250 GB.

On each it runs `judge`, `table`, `explain` and `twin`. What `judge` says is compared
with what the replay was made to give, and the exit status is 1 where it is something
else. Nothing is written outside a temporary folder, which takes up to 2 GB.

With one program, the one that was built here if none is named, each replay is written
whole and at a tenth of its commands. For each command it prints the median time of
three runs, the peak memory of that run and the size of the replay; then how the whole
replay compares with its tenth: a program that is linear takes about ten times as long.

With two programs both run on each whole replay in turn, 7 times. For each command it
prints the median time of both, the least time that a processor took for them, which
other work on the machine changes less, and the time of PROGRAM divided by that of
OTHER. Both must print the same bytes; where they do not, that is told, and the exit
status is 1.
"""
import argparse
import pathlib
import subprocess
import sys
import tempfile
from typing import (
    Any,
    Callable,
    Dict,
    Iterator,
    List,
    NamedTuple,
    Optional,
    Sequence,
    TextIO,
    Tuple,
)

from bench.compare import line_of
from bench.inputs import LONGEST_TEXT, median_run, run
from arena_lab.rules.limits import (
    MAX_AGENTS,
    MAX_BOARD,
    MAX_QUOTA,
    SMALL_BOARD,
    SMALL_QUOTA,
)
from arena_lab.rules.model import spell
from arena_lab.rules.networks import torus

TOP = pathlib.Path(__file__).resolve().parent.parent
PROGRAM = TOP / "crates" / "bhs_main" / "out" / "bhs_main"
SIDE = 16
NODES = SIDE * SIDE
EAST = 0
SOUTH = 2
FROM_WEST = 1
NEVER_REACHED = NODES - 1
# commands of an agent with the longest text, so that a replay has some 400 MB
LONG_TEXTS = 100
RUNS = 3
ROUNDS = 7

Event = Dict[str, Any]


def events_at_most(quota: int) -> int:
    """The events of the largest log: each agent enters, departs and arrives with each
    command, and leaves; the close is last."""
    return MAX_AGENTS * (2 * quota + 2) + 1


def here(port: Optional[int], board: str) -> Event:
    return {"ok": "here", "ports": 4, "from": port, "board": board}


def event(agent: int, do: str, reply: Optional[Event], **extra: Any) -> Event:
    return {"agent": agent, "do": do, "reply": reply, **extra}


def hole_of_moves(commands: int) -> int:
    """Where the last step of agent 0 leads: south of where it stands after all steps
    but one to the east."""
    return SIDE + (commands - 1) % SIDE


def moves(commands: int) -> Iterator[Event]:
    """All agents walk east round row 0, side by side; at last agent 0 steps south, into
    the black hole."""
    for agent in range(MAX_AGENTS):
        yield event(agent, "enter", here(None, ""))
    for step in range(commands):
        for agent in range(MAX_AGENTS):
            falls = agent == 0 and step == commands - 1
            yield event(agent, "depart", {"ok": "gone"}, port=SOUTH if falls else EAST)
            yield event(agent, "deliver", None if falls else here(FROM_WEST, ""))
    for agent in range(MAX_AGENTS):
        yield event(agent, "leave", {"ok": "bye"})


def whiteboards(commands: int) -> Iterator[Event]:
    """All agents stay at the home base; of four commands one writes the longest text,
    one wipes it, and after each of them one looks."""
    board = ""
    for agent in range(MAX_AGENTS):
        yield event(agent, "enter", here(None, board))
    for step in range(commands):
        for agent in range(MAX_AGENTS):
            if (step + agent) % 2 == 0:
                text = "" if board else "a" * LONGEST_TEXT
                yield event(agent, "write", {"ok": "written"}, expect=board, put=text)
                board = text
            else:
                yield event(agent, "look", here(None, board))
    for agent in range(MAX_AGENTS):
        yield event(agent, "leave", {"ok": "bye"})


def long_lines(commands: int) -> Iterator[Event]:
    """All agents write the longest texts: longer than a small whiteboard takes."""
    text = "a" * LONGEST_TEXT
    for agent in range(MAX_AGENTS):
        yield event(agent, "enter", here(None, ""))
    for _ in range(commands):
        for agent in range(MAX_AGENTS):
            yield event(agent, "write", {"no": "long"}, expect="", put=text)
    for agent in range(MAX_AGENTS):
        yield event(agent, "leave", {"ok": "bye"})


class Kind(NamedTuple):
    """A kind of replay: its events by the commands of an agent, how many those are, the
    black hole, the moves, the lost agents, and the bytes of a whiteboard."""

    title: str
    events: Callable[[int], Iterator[Event]]
    commands: int
    hole: Callable[[int], int]
    moves: Callable[[int], int]
    lost: int
    board: int = MAX_BOARD


KINDS = [
    Kind(
        "small moves",
        moves,
        SMALL_QUOTA,
        hole_of_moves,
        lambda commands: MAX_AGENTS * commands,
        1,
    ),
    Kind(
        "moves",
        moves,
        MAX_QUOTA,
        hole_of_moves,
        lambda commands: MAX_AGENTS * commands,
        1,
    ),
    Kind("whiteboards", whiteboards, LONG_TEXTS, lambda _: NODES // 2, lambda _: 0, 0),
    Kind(
        "long lines",
        long_lines,
        LONG_TEXTS,
        lambda _: NODES // 2,
        lambda _: 0,
        0,
        SMALL_BOARD,
    ),
]


def head(hole: int, board: int = MAX_BOARD) -> Event:
    """The head of a replay on the torus: each link from its lesser node, in order of
    that node and its port there."""
    links = [
        (v, p, w, q) if v < w else (w, q, v, p)
        for v, p, w, q in torus(SIDE, SIDE).links
    ]
    return {
        "replay": 3,
        "agents": MAX_AGENTS,
        "quota": MAX_QUOTA,
        "board": board,
        "home": 0,
        "holes": [hole],
        "dark": [],
        "nodes": NODES,
        "links": sorted(links),
    }


def write_replay(
    out: TextIO, hole: int, events: Iterator[Event], board: int = MAX_BOARD
) -> int:
    """Writes a whole replay, the close last; answers the number of its events."""
    out.write(spell(head(hole, board)) + "\n")
    count = 0
    for each in events:
        out.write(spell(each) + "\n")
        count += 1
    out.write('{"do":"close","reply":null}\n' + spell({"end": count + 1}) + "\n")
    return count + 1


def commands_on(name: str) -> List[List[str]]:
    """The words of each command on a replay."""
    return [
        ["judge", name],
        ["table", f"team={name}"],
        ["explain", name, "0"],
        ["twin", name, str(NEVER_REACHED)],
    ]


def measure(
    program: str, name: str, folder: pathlib.Path
) -> List[Tuple[str, float, int]]:
    """For each command its word, median time and peak memory."""
    figures = []
    for words in commands_on(name):
        seconds, _, peak = median_run(RUNS, program, words, folder / "empty", folder)
        figures.append((words[0], seconds, peak))
    return figures


def is_judged(
    program: str, kind: Kind, commands: int, name: str, folder: pathlib.Path
) -> bool:
    """Returns whether `judge` prints the expected verdict of the replay, and reports a
    difference."""
    verdict = f"silent moves {kind.moves(commands)} lost {kind.lost}"
    result = subprocess.run(
        [program, "judge", name],
        cwd=folder,
        stdout=subprocess.PIPE,
        check=True,
        text=True,
    )
    if result.stdout.strip() != verdict:
        print(f"{kind.title}: judge should say: {verdict}")
    return result.stdout.strip() == verdict


def figure_line(word: str, seconds: float, count: int, peak: int) -> str:
    """What is printed of a command on a replay with this number of events.
    bench/figure_texts.py reads it."""
    return f"  {word}: {seconds:.3f} s, {seconds / count * 1e6:.2f} us an event, peak {peak} KiB"


def write_agent_replay(kind: Kind, commands: int, path: pathlib.Path) -> int:
    """Writes a replay of this many commands of an agent, and says how large it is:
    gives the number of its events."""
    with open(path, "w", encoding="utf-8") as out:
        count = write_replay(
            out, kind.hole(commands), kind.events(commands), kind.board
        )
    print(f"{kind.title}: {count} events, {path.stat().st_size} bytes", flush=True)
    return count


def alone(program: str, kind: Kind, folder: pathlib.Path) -> bool:
    """Times one kind, whole and at a tenth; answers whether `judge` said what it
    should."""
    right = True
    whole = []
    for part in (1, 10):
        commands = kind.commands // part
        name = f"replay{part}.jsonl"
        count = write_agent_replay(kind, commands, folder / name)
        right = is_judged(program, kind, commands, name, folder) and right
        figures = measure(program, name, folder)
        for word, seconds, peak in figures:
            print(figure_line(word, seconds, count, peak), flush=True)
        if part == 1:
            whole = figures
        else:
            for (word, slow, high), (_, fast, low) in zip(whole, figures):
                print(
                    f"  {word}: the whole takes {slow / fast:.1f} times as long, {high / low:.1f} times the memory"
                )
        (folder / name).unlink()
    return right


def print_the_same(
    programs: Sequence[str], words: Sequence[str], folder: pathlib.Path
) -> bool:
    """Returns whether the programs print equal bytes. Outputs are written to files,
    because they may be large."""
    paths = [folder / f"printed{index}" for index in range(len(programs))]
    for program, path in zip(programs, paths):
        with open(path, "wb") as out:
            subprocess.run([program, *words], stdout=out, cwd=folder, check=True)
    same = (
        subprocess.run(
            ["cmp", *map(str, paths)], stdout=subprocess.DEVNULL, check=False
        ).returncode
        == 0
    )
    for path in paths:
        path.unlink()
    if not same:
        print(f"  {words[0]}: the programs do not print the same")
    return same


def beside(
    programs: Sequence[str], kind: Kind, rounds: int, folder: pathlib.Path
) -> bool:
    """Times two programs on one kind, in turn; answers whether they print the same, and
    `judge` what it should."""
    name = "replay.jsonl"
    write_agent_replay(kind, kind.commands, folder / name)
    right = all(
        [is_judged(program, kind, kind.commands, name, folder) for program in programs]
    )
    for words in commands_on(name):
        runs = [
            [run(program, words, folder / "empty", folder) for program in programs]
            for _ in range(rounds)
        ]
        print(line_of(f"  {words[0]}", runs), flush=True)
        right = print_the_same(programs, words, folder) and right
    (folder / name).unlink()
    return right


def given_words(words: Optional[Sequence[str]] = None) -> argparse.Namespace:
    parser = argparse.ArgumentParser(
        description=__doc__, formatter_class=argparse.RawDescriptionHelpFormatter
    )
    parser.add_argument(
        "program", nargs="?", type=pathlib.Path, default=PROGRAM, help="a built program"
    )
    parser.add_argument(
        "other", nargs="?", type=pathlib.Path, help="another build of it"
    )
    parser.add_argument(
        "--rounds",
        type=int,
        default=ROUNDS,
        metavar="N",
        help="how often both programs run in turn",
    )
    return parser.parse_args(words)


def main() -> int:
    args = given_words()
    programs = [path.resolve() for path in (args.program, args.other) if path]
    for path in programs:
        if not path.exists():
            raise SystemExit(f"there is no program {path}: tools/build builds it")
    with tempfile.TemporaryDirectory() as name:
        folder = pathlib.Path(name)
        (folder / "empty").write_text("")
        if args.other:
            results = [
                beside([*map(str, programs)], kind, args.rounds, folder)
                for kind in KINDS
            ]
        else:
            results = [alone(str(programs[0]), kind, folder) for kind in KINDS]
    return 0 if all(results) else 1


if __name__ == "__main__":
    sys.exit(main())
