"""What cases of the program share; and cases of quotas that are spent, of scripts that
are drawn from a seed, and of contests over TCP."""
import functools
import pathlib
import random
import socket
from typing import Callable, Dict, Sequence, Tuple

from arena_lab.rules.limits import MAX_LINE
from tests.support.counts import require
from tests.support.program_rows import (
    DONE,
    FAILED_STREAM,
    REFUSED_TEXT,
    Stage,
    difference,
    expect,
)
from tests.support.servers import enter, serve

TOP = pathlib.Path(__file__).resolve().parents[2]
REFUSED_WORDS = 2
REFUSED_MATCH = 4
NO_MEMORY = 5

ENTER = '{"do":"enter","key":"ka"}'
LOOK = '{"do":"look"}'
HERE = '0 {"board":"","from":null,"ok":"here","ports":2}\n'
ROAD = f'0 {ENTER}\n0 {{"do":"depart","port":0}}\ndraw 0 0\n'
SEEN = HERE + '0 {"ok":"gone"}\n0 {"board":"","from":0,"ok":"here","ports":2}\n'
BAD = '0 {"no":"line"}\n'

TRIANGLE = "version = 1\nnodes = 3\nlinks = [[0,0,1,0],[1,1,2,0],[2,1,0,1]]\n"
SEED = f'version = 2\nseed = "{"0" * 64}"\n'
MATCH = """
[[match]]
team = "red"
network = "{network}"
home = 0
holes = [2]
quota = 10
board = 8
keys = ["{key}a", "{key}b"]
"""
CUP = SEED + MATCH.format(network="tri.toml", key="k")
TABLE_HEAD = "  # team             outcome     moves lost"
# help text after the fault of a missing file
ABSENT = b"  there is no such file\n"

Trial = Callable[[Stage], None]
CASES: Dict[str, Trial] = {}


def case(title: str) -> Callable[[Trial], Trial]:
    """Makes a function a case."""

    def add(trial: Trial) -> Trial:
        CASES[title] = trial
        return trial

    return add


def rehearses(
    stage: Stage, script: str, output: str, text: str = "", status: int = DONE
) -> None:
    """A script on the built-in tournament prints this, or is refused so."""
    expect(
        stage.run(["rehearse"], script.encode()),
        output.encode(),
        text.encode(),
        status,
    )


def writes(stage: Stage, **texts: str) -> None:
    """Writes tournaments or networks by their names."""
    for name, text in texts.items():
        (stage.folder / f"{name}.toml").write_text(text)


# Quotas and pieces.


def spends(stage: Stage, first: Sequence[Tuple[str, str]], looks: int) -> None:
    """An agent enters, is answered so, looks this many times, and has then spent its
    quota."""
    message = [
        (ENTER, HERE),
        *first,
        *[(LOOK, HERE)] * looks,
        (LOOK, '0 {"no":"spent"}\n'),
        ('{"do":"leave"}', '0 {"ok":"bye"}\n'),
        (LOOK, ""),
    ]
    rehearses(
        stage,
        "".join(f"0 {line}\n" for line, _ in message),
        "".join(answer for _, answer in message),
    )


@case("a quota is used up by ten looks")
def quota_of_looks(stage: Stage) -> None:
    spends(stage, [], 10)


@case("a port that is not there is one of a quota")
def quota_and_port(stage: Stage) -> None:
    spends(stage, [('{"do":"depart","port":2}', '0 {"no":"port"}\n')], 9)


@case("wrong lines use up a quota")
def quota_and_lines(stage: Stage) -> None:
    spends(stage, [('{"do":"jump"}', BAD), ("x" * (MAX_LINE + 1), BAD)], 8)


@case("bytes may come one by one")
def one_by_one(stage: Stage) -> None:
    text = f"{ENTER}\n{LOOK}\n{LOOK}".encode()
    rehearses(
        stage, "".join(f"hex 0 {byte:02x}\n" for byte in text) + "end 0\n", HERE * 2
    )


# of a script, and how many bytes the longest of some scripts prints at least
INSTRUCTIONS = 60
LONG = 400
DRAWN = [
    ENTER,
    '{"do":"enter","key":"kb"}',
    '{"do":"enter","key":"zz"}',
    LOOK,
    '{"do":"write","expect":"","put":"é"}',
    '{"do":"write","expect":"é","put":"b"}',
    '{"do":"depart","port":0}',
    '{"do":"depart","port":0}',
    '{"do":"depart","port":1}',
    '{"do":"accuse","port":1}',
    '{"do":"leave"}',
    "",
]


def feeds(dice: random.Random, conn: int, line: str) -> Tuple[str, str]:
    """A connection sends a line: whole, and cut before about one byte in six."""
    begin = f"hex {conn} "
    digits = [f"{byte:02x}" for byte in f"{line}\n".encode()]
    cut = digits[0] + "".join(
        f"\n{begin}{two}" if dice.randrange(6) == 0 else two for two in digits[1:]
    )
    return f"{begin}{''.join(digits)}\n", f"{begin}{cut}\n"


def instruction(dice: random.Random) -> Tuple[str, str]:
    """An instruction of a script, and the same with its feeds cut."""
    number = dice.randrange(60)
    if number >= 16:
        return feeds(dice, dice.randrange(4), dice.choice(DRAWN))
    line = (
        ["close 0\n", "end 0\n", "end 1\n"][number]
        if number < 3
        else f"draw 0 {number // 12}\n"
    )
    return line, line


def drawn_script(seed: int) -> Tuple[str, str]:
    """A script, and the same with its feeds cut: two agents enter, and then anything is
    drawn."""
    dice = random.Random(seed)
    pairs = [feeds(dice, conn, DRAWN[conn]) for conn in (0, 1)]
    pairs += [instruction(dice) for _ in range(INSTRUCTIONS)]
    return "".join(whole for whole, _ in pairs), "".join(cut for _, cut in pairs)


def feeds_are_cut(seeds: Sequence[int], stage: Stage) -> None:
    """Scripts that are drawn from these seeds print the same with their feeds cut, and
    some print much."""
    longest = 0
    for seed in seeds:
        whole, cut = drawn_script(seed)
        result = stage.run(["rehearse"], whole.encode())
        expect(result, result.stdout)
        difference(
            f"seed {seed}, cut",
            result.stdout,
            stage.run(["rehearse"], cut.encode()).stdout,
        )
        longest = max(longest, len(result.stdout))
    require(longest > LONG, f"the longest prints {longest} bytes")


for first_seed in range(0, 200, 25):
    CASES[f"feeds may be cut anywhere, seeds from {first_seed}"] = functools.partial(
        feeds_are_cut, range(first_seed, first_seed + 25)
    )


# Contests.


@case("what keeps a contest from beginning is told")
def refused_contests(stage: Stage) -> None:
    writes(stage, cup=CUP, tri=TRIANGLE)
    with socket.create_server(("127.0.0.1", 0)) as duration:
        conditions = ["--port", str(duration.getsockname()[1])]
        message = b"serve: listen\n  another program listens on this port: end it, or give another --port\n"
        expect(
            stage.run(["serve", "cup.toml", *conditions]), b"", message, FAILED_STREAM
        )
        expect(
            stage.run(["serve", "none.toml", *conditions]),
            b"",
            b"none.toml: read\n" + ABSENT,
            FAILED_STREAM,
        )
        expect(
            stage.run(["serve", "tri.toml", *conditions]),
            b"",
            b"tri.toml: missing seed\n  seed: a text of 64 hexadecimal digits\n",
            REFUSED_TEXT,
        )


# replies to an agent that enters before and after the close
SIGHT = HERE.partition(" ")[2].encode()
OVER = b'{"ok":"over"}\n'


@case("a contest is hosted")
def contest(stage: Stage) -> None:
    writes(stage, cup=CUP, tri=TRIANGLE)
    with serve(
        stage.program, stage.folder, turns=0, pause=0, sessions=1, prefix="hosted"
    ) as server:
        heard = server.hears(enter("ka"))
        run = server.wait_for_end()
    row = "  1 red              silent          0    0"
    expect(run, f"{TABLE_HEAD}\n{row}\n".encode())
    require(heard in (SIGHT, OVER), f"the client heard {heard!r}")
    replays = sorted(path.name for path in stage.folder.glob("*.jsonl"))
    require(replays == ["hosted0.jsonl"], f"the replays are {replays}")
    expect(stage.run(["judge", "hosted0.jsonl"]), b"silent moves 0 lost 0\n")
