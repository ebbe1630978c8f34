"""Cases of many and of long replays: more than one digit in their numbers, more words
than a shell's line has, and more bytes than a program reads at once. And cases of texts
that would control a terminal."""
import concurrent.futures
import json
import os
import tty
from typing import List, Sequence

from tests.program.program_cases import MATCH, SEED, TABLE_HEAD, TRIANGLE, case, writes
from tests.support.counts import require
from tests.support.program_rows import Stage, FailedCheckError, expect

ENTER = '{"do":"enter","key":"ka"}'
LOOK = '{"do":"look"}'
# more than any buffer of the program takes
LONG = 70_000


def rehearse(stage: Stage, cup: str, script: str) -> None:
    """Replays m0.jsonl, m1.jsonl and so on of a script."""
    writes(stage, cup=cup, tri=TRIANGLE)
    result = stage.run(["rehearse", "cup.toml", "--replay", "m"], script.encode())
    expect(result, result.stdout)


@case("each of twelve matches has a replay with its own number")
def twelve_replays(stage: Stage) -> None:
    cup = SEED + "".join(
        MATCH.format(network="tri.toml", key=f"k{match}-") for match in range(12)
    )
    rehearse(stage, cup, "".join(f"close {match}\n" for match in range(12)))
    names = sorted(path.name for path in stage.folder.glob("m*.jsonl"))
    require(
        names == sorted(f"m{match}.jsonl" for match in range(12)), f"there are {names}"
    )


@case("a table takes a hundred replays")
def many_words(stage: Stage) -> None:
    rehearse(stage, SEED + MATCH.format(network="tri.toml", key="k"), "close 0\n")
    rows = "".join(
        f"{index:3} {f't{index - 1:03}':16} silent          0    0\n"
        for index in range(1, 101)
    )
    words = ["table", *(f"t{number:03}=m0.jsonl" for number in range(100))]
    expect(stage.run(words), f"{TABLE_HEAD}\n{rows}".encode())


@case("a word may have six hundred bytes")
def long_word(stage: Stage) -> None:
    folder = "/".join(letter * 200 for letter in "nmo")
    (stage.folder / folder).mkdir(parents=True)
    writes(stage, tri=TRIANGLE)
    (stage.folder / folder / "cup.toml").write_text(
        SEED + MATCH.format(network="tri.toml", key="k")
    )
    expect(
        stage.run(["check", f"{folder}/cup.toml"]),
        b"match 0 red nodes 3 links 3 agents 2\n",
    )


@case("replays of many bytes are read to their ends")
def long_replays(stage: Stage) -> None:
    cup = SEED + MATCH.format(network="tri.toml", key="k").replace(
        "quota = 10", "quota = 1000"
    )
    last = '0 {"do":"accuse","port":1}\n'
    rehearse(stage, cup, f"0 {ENTER}\n" + f"0 {LOOK}\n" * 999 + last + "close 0\n")
    text = (stage.folder / "m0.jsonl").read_bytes()
    require(len(text) >= LONG, f"the replay has {len(text)} bytes alone")
    lines = text.splitlines(keepends=True)
    (stage.folder / "part").write_bytes(b"".join(lines[:-2]))
    expect(stage.run(["recover", "part"]), text)
    expect(stage.run(["judge", "m0.jsonl"]), b"guess 1 moves 0 lost 0\n")
    table = f"{TABLE_HEAD}\n  1 red              guess 1         0    0\n"
    expect(stage.run(["table", "red=m0.jsonl"]), table.encode())
    expect(
        stage.run(["explain", "m0.jsonl", "0"]),
        b"".join(b"%d %b" % (index, line) for index, line in enumerate(lines[1:-2])),
    )
    expect(
        stage.run(["twin", "m0.jsonl", "1"]),
        text.replace(b'"holes":[2]', b'"holes":[1]'),
    )


# Control characters and bidirectional controls: first and last of each range, with the
# neighbours outside that a text may contain.
CONTROLS = [
    (0x00, 0x1F),
    (0x7F, 0x9F),
    (0x61C, 0x61C),
    (0x200E, 0x200F),
    (0x202A, 0x202E),
    (0x2066, 0x2069),
]


def controls(character: str) -> bool:
    return any(first <= ord(character) <= last for first, last in CONTROLS)


def replay_of_controls(stage: Stage) -> List[str]:
    """The event lines of a replay m0.jsonl whose agent writes each of these characters,
    the close left out."""
    cup = SEED + MATCH.format(network="tri.toml", key="k").replace(
        "quota = 10", "quota = 1000"
    )
    codes = [
        code
        for first, last in CONTROLS
        for code in range(first - 1, last + 2)
        if code >= 0
    ]
    texts = ["", *(f"{chr(code)}b" for code in codes)]
    line_list = [f"0 {ENTER}"]
    for expect_, text in zip(texts, texts[1:]):
        line_list.append(
            "0 " + json.dumps({"do": "write", "expect": expect_, "put": text})
        )
    rehearse(stage, cup, "\n".join([*line_list, f"0 {LOOK}", "close 0"]) + "\n")
    lines = (stage.folder / "m0.jsonl").read_text().split("\n")[1:-3]
    if not any(map(controls, "".join(lines))) or len(lines) != len(texts) + 1:
        raise FailedCheckError(
            "the replay lacks such a character, so this shows nothing"
        )
    return lines


def shown_on_terminal(stage: Stage, words: Sequence[str]) -> bytes:
    """What a terminal gets of the program."""
    reader, terminal = os.openpty()
    # so line feeds stay line feeds
    tty.setraw(terminal)
    with concurrent.futures.ThreadPoolExecutor(1) as pool:
        duration = pool.submit(all_of_terminal, reader)
        try:
            stage.run(words, stdout=terminal)
        finally:
            os.close(terminal)
            view = duration.result()
            os.close(reader)
    return view


def all_of_terminal(reader: int) -> bytes:
    """What programs write to a terminal, until none has it open: reading fails then."""
    duration = b""
    while True:
        try:
            duration += os.read(reader, LONG)
        except OSError:
            return duration


@case("a program that reads a causal past gets the lines of the replay, byte for byte")
def explained_exactly(stage: Stage) -> None:
    lines = replay_of_controls(stage)
    expect(
        stage.run(["explain", "m0.jsonl", "0"]),
        "".join(f"{index} {line}\n" for index, line in enumerate(lines)).encode(),
    )


@case(
    "on a terminal a causal past has no character that controls it, and is the same JSON as the replay"
)
def explained_controls(stage: Stage) -> None:
    lines = replay_of_controls(stage)
    view = (
        shown_on_terminal(stage, ["explain", "m0.jsonl", "0"]).decode().split("\n")[:-1]
    )
    for line in view:
        require(
            not any(map(controls, line)),
            f"{line!r} has a character that controls a terminal",
        )
    parts = [line.split(" ", 1) for line in view]
    if [int(part) for part, _ in parts] != list(range(len(lines))):
        raise FailedCheckError(
            f"the places of {len(parts)} lines of {len(lines)} are {[part for part, _ in parts]}"
        )
    if [json.loads(line) for _, line in parts] != [json.loads(line) for line in lines]:
        raise FailedCheckError("the lines are not the JSON of the replay")
    for (_, line), own in zip(parts, lines):
        if not any(map(controls, own)) and line != own:
            raise FailedCheckError(
                f"{line!r} is not {own!r}, which controls no terminal"
            )


@case("words that are refused control no terminal")
def refused_controls(stage: Stage) -> None:
    run = stage.run(["judge", "a", "b\u009b\u202e\x1b[31m"])
    if rb"'b\u009b\u202e\u001b[31m' found" not in run.stderr or run.status != 2:
        raise FailedCheckError(f"{run}")


@case("a replay of 25,000 events has a twin")
def twin_of_many_events(stage: Stage) -> None:
    looks = 25_000
    head = SEED.replace("version = 2", "version = 3")
    cup = head + MATCH.format(network="tri.toml", key="k").replace(
        "quota = 10", "quota = 60000"
    )
    script = f"0 {ENTER}\n" + f"0 {LOOK}\n" * looks + "close 0\n"
    rehearse(stage, cup, script)
    text = (stage.folder / "m0.jsonl").read_bytes()
    require(text.count(b"look") == looks, "the replay lacks a command")
    expect(
        stage.run(["twin", "m0.jsonl", "1"]),
        text.replace(b'"holes":[2]', b'"holes":[1]'),
    )
