"""Cases of the largest networks and quotas, and of the longest texts and names."""
import os

from arena_lab.rules.limits import MAX_LINE, MAX_TEXT
from tests.program.program_cases import (
    BAD,
    CUP,
    ENTER,
    HERE,
    LOOK,
    MATCH,
    NO_MEMORY,
    REFUSED_MATCH,
    SEED,
    TOP,
    TRIANGLE,
    case,
    rehearses,
    writes,
)
from tests.support.counts import require
from tests.support.program_rows import REFUSED_TEXT, SOME_HELP, Stage, expect

# the bytes of the longest line of a turn, with its line feed
LONGEST_TURN = 11


@case("each two of the most nodes are linked")
def complete_graph(stage: Stage) -> None:
    links = [
        [first, second - 1, second, first]
        for first in range(256)
        for second in range(first + 1, 256)
    ]
    writes(stage, cup=CUP, tri=f"version = 1\nnodes = 256\nlinks = {links}\n")
    expect(
        stage.run(["check", "cup.toml"]),
        b"match 0 red nodes 256 links 32640 agents 2\n",
    )


@case("a network of version 2 has 4,096 nodes")
def most_nodes(stage: Stage) -> None:
    ring = [[node, 0, (node + 1) % 4096, 1] for node in range(4096)]
    writes(stage, cup=CUP, tri=f"version = 2\nnodes = 4096\nlinks = {ring}\n")
    expect(
        stage.run(["check", "cup.toml"]),
        b"match 0 red nodes 4096 links 4096 agents 2\n",
    )
    result = stage.run(
        ["rehearse", "cup.toml", "--replay", "ring"], f"0 {ENTER}\nclose 0\n".encode()
    )
    expect(result, HERE.encode())
    head = (stage.folder / "ring0.jsonl").read_text().partition("\n")[0]
    require(
        head.endswith('"nodes":4096,"quota":10,"replay":3}'),
        f"the head ends with {head[-60:]}",
    )
    expect(stage.run(["judge", "ring0.jsonl"]), b"silent moves 0 lost 0\n")


LARGE = CUP.replace("version = 2", "version = 3")


@case("a quota of version 3 is used up by its last command")
def large_quota(stage: Stage) -> None:
    writes(stage, cup=LARGE.replace("quota = 10", "quota = 2000"), tri=TRIANGLE)
    script = f"0 {ENTER}\n" + f"0 {LOOK}\n" * 2001
    result = stage.run(["rehearse", "cup.toml"], script.encode())
    expect(result, (HERE * 2001 + '0 {"no":"spent"}\n').encode())


@case("a whiteboard of version 3 holds more than 4,096 bytes")
def large_board(stage: Stage) -> None:
    writes(stage, cup=LARGE.replace("board = 8", "board = 65535"), tri=TRIANGLE)
    text = "a" * 65_000
    message = [
        (ENTER, HERE),
        (f'{{"do":"write","expect":"","put":"{text}"}}', '0 {"ok":"written"}\n'),
        (LOOK, HERE.replace('""', f'"{text}"')),
        # a line that names both texts is too long
        (f'{{"do":"write","expect":"{text}","put":"{text}"}}', BAD),
        (f'{{"do":"write","expect":"{text}","put":""}}', '0 {"ok":"written"}\n'),
        (LOOK, HERE),
    ]
    result = stage.run(
        ["rehearse", "cup.toml"], "".join(f"0 {line}\n" for line, _ in message).encode()
    )
    expect(result, "".join(answer for _, answer in message).encode())


@case("the largest match is told to lack memory where too little may be mapped")
def large_match(stage: Stage) -> None:
    keys = ", ".join(f'"k{agent}"' for agent in range(64))
    writes(
        stage,
        cup=LARGE.replace("quota = 10", "quota = 65535").replace('"ka", "kb"', keys),
        tri=TRIANGLE,
    )
    expect(stage.run(["check", "cup.toml"]), b"match 0 red nodes 3 links 3 agents 64\n")
    front = stage.memory_limit(400 << 20)
    expect(
        stage.run(["check", "cup.toml"], front=front),
        b"",
        b"cup.toml: memory\n",
        NO_MEMORY,
    )


# Long texts.


@case("long lines are answered")
def long_lines(stage: Stage) -> None:
    lines = [ENTER, "a" * 70_000]
    lines += [LOOK + " " * (length - len(LOOK)) for length in (MAX_LINE, MAX_LINE + 1)]
    lines += [f'{{"do":"look","x":{"[" * depth}{"]" * depth}}}' for depth in (10, 200)]
    rehearses(stage, "".join(f"0 {line}\n" for line in lines), (HERE + BAD) * 3)


@case("a script of the greatest length, and one byte more")
def longest_script(stage: Stage) -> None:
    rehearses(stage, "\n" * MAX_TEXT, "")
    rehearses(stage, "\n" * (MAX_TEXT + 1), "", "script: text\n", REFUSED_TEXT)


@case("a file of the greatest length, and one byte more")
def longest_file(stage: Stage) -> None:
    for extra, fault in (
        (0, "version\n  version: 1, 2 or 3; of a network 1 or 2"),
        (1, "text"),
    ):
        writes(stage, long="#" * (MAX_TEXT + extra))
        expect(
            stage.run(["check", "long.toml"]),
            b"",
            f"long.toml: {fault}\n".encode(),
            REFUSED_TEXT,
        )


@case(
    "a file of turns of the greatest length, one byte more, and a file without an end"
)
def longest_turns(stage: Stage) -> None:
    (stage.folder / "examples").symlink_to(TOP / "examples")
    turns = stage.folder / "long.turns"
    events = 69
    longest = LONGEST_TURN * events + MAX_TEXT
    words = "judge examples/appeal0.jsonl --turns long.turns --tournament examples/appeal.toml --match 0".split()
    turns.write_text("0\n" * (longest // 2))
    text = f"long.turns: {longest // 2} turns, {events} events\n"
    expect(stage.run(words), b"", text.encode(), REFUSED_MATCH)
    turns.write_text("0" * (longest + 1))
    expect(stage.run(words), b"", b"long.turns: text\n", REFUSED_TEXT)
    os.truncate(turns, 10**12)
    expect(stage.run(words), b"", b"long.turns: text\n", REFUSED_TEXT)


@case("names of networks have 255 bytes")
def longest_name(stage: Stage) -> None:
    name = "n" * 255
    (stage.folder / name).write_text(TRIANGLE)
    writes(
        stage,
        cup=CUP.replace("tri.toml", name),
        long=CUP.replace("tri.toml", f"{name}n"),
    )
    expect(stage.run(["check", "cup.toml"]), b"match 0 red nodes 3 links 3 agents 2\n")
    message = b"long.toml: match 0 shape network\n" + SOME_HELP
    expect(stage.run(["check", "long.toml"]), b"", message, REFUSED_TEXT)


@case("tournaments have 64 matches")
def most_matches(stage: Stage) -> None:
    matches = [MATCH.format(network="tri.toml", key=number) for number in range(65)]
    writes(
        stage,
        tri=TRIANGLE,
        cup=SEED + "".join(matches[:64]),
        long=SEED + "".join(matches),
    )
    lines = "".join(
        f"match {number} red nodes 3 links 3 agents 2\n" for number in range(64)
    )
    expect(stage.run(["check", "cup.toml"]), lines.encode())
    expect(
        stage.run(["check", "long.toml"]),
        b"",
        b"long.toml: shape match\n" + SOME_HELP,
        REFUSED_TEXT,
    )
