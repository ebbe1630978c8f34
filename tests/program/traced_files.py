"""Cases that look at the calls by which a server writes its files: no contract speaks
of the names of files."""
import contextlib
import itertools
import re
import shutil
import unittest
from typing import Dict, Iterator, List, NamedTuple, Tuple

from tests.program.program_cases import MATCH, SEED, TRIANGLE, case, writes
from tests.support.counts import FailedCheckError, require
from tests.support.program_rows import DONE, Stage
from tests.support.servers import enter, serve
from tests.support.session_lines import LEAVE, LOOK

CALLS = (
    "write,writev,pwrite64,fsync,fdatasync,rename,renameat,renameat2,unlink,unlinkat"
)
# `12 fsync(7</folder/name>) = 0` and `12 rename("name", "other") = 0`, 12 being the
# thread; a call that another thread interrupts stands in two lines
CALL = re.compile(r"\d+ +(\w+)\((.*)\) += (-?\d+)")
BEGUN = re.compile(r"(\d+) +(\w+\(.*) <unfinished \.\.\.>")
RESUMED = re.compile(r"(\d+) +<\.\.\. \w+ resumed>(.*)")
NAMED = re.compile(r'"([^"]*)"|\d+<([^>]*)>')
# system call -> purpose
STEPS = {
    "write": "write",
    "writev": "write",
    "pwrite64": "write",
    "fsync": "sync",
    "fdatasync": "sync",
    "rename": "rename",
    "renameat": "rename",
    "renameat2": "rename",
    "unlink": "remove",
    "unlinkat": "remove",
}

# (purpose, file names relative to the server's folder)
Step = Tuple[str, ...]


class Call(NamedTuple):
    """A call that succeeded, and the number that it gave: of a write, how many bytes it
    took."""

    step: Step
    given: int


def whole_calls(trace: str) -> Iterator[str]:
    """Yields complete calls of a trace; interrupted calls are joined."""
    start: Dict[str, str] = {}
    for line in trace.splitlines():
        first = BEGUN.match(line)
        last = RESUMED.match(line)
        if first:
            start[first[1]] = f"{first[1]} {first[2]}"
        elif last:
            yield start.pop(last[1], "") + last[2]
        else:
            yield line


def calls_in(trace: str, folder: str) -> Iterator[Call]:
    """The calls in a trace of a server in this folder."""
    for line in whole_calls(trace):
        match = CALL.match(line)
        if not match or int(match[3]) < 0:
            continue
        names = [
            quoted_value or of_number
            for quoted_value, of_number in NAMED.findall(match[2])
        ]
        kind = STEPS[match[1]]
        files = names if kind in ("rename", "remove") else names[:1]
        yield Call(
            (
                kind,
                *(
                    name.replace(f"{folder}/", "").replace(folder, ".")
                    for name in files
                ),
            ),
            int(match[3]),
        )


def steps_of(calls: List[Call]) -> List[Step]:
    """Returns the purposes of calls, with repetitions merged."""
    return [step for step, _ in itertools.groupby(call.step for call in calls)]


def trace_server(
    stage: Stage, cup: str, turns: int, *says: bytes, prefix: str = "match"
) -> List[Call]:
    """The calls of a server of this tournament, to which clients say this at the same
    time."""
    if not shutil.which("strace"):
        raise unittest.SkipTest("Debian's strace is not installed")
    writes(stage, cup=cup, tri=TRIANGLE)
    front = ["strace", "-f", "-y", "-o", "trace", "-e", f"trace={CALLS}"]
    with serve(
        stage.program,
        stage.folder,
        turns=turns,
        pause=20,
        sessions=max(1, len(says)),
        grace=0,
        prefix=prefix,
        front=front,
    ) as server:
        with contextlib.ExitStack() as stack:
            clients = [stack.enter_context(server.connect()) for _ in says]
            for client, message in zip(clients, says):
                client.sendall(message)
            for client in clients:
                stack.enter_context(client.makefile("rb")).read()
        run = server.wait_for_end()
    require(run.status == DONE, f"the server ended with {run}")
    return list(calls_in((stage.folder / "trace").read_text(), str(stage.folder)))


RED, BLUE = (MATCH.format(network="tri.toml", key=key) for key in "rb")


@case(
    "a part gets the name of its replay, and the replay its own, once its text is on the disk"
)
def put_in_place(stage: Stage) -> None:
    steps = steps_of(trace_server(stage, SEED + RED, 1))
    part = "match0.jsonl.part"
    new = "match0.jsonl.new"
    expectation = [
        ("write", part),
        ("sync", part),
        ("rename", part, "match0.jsonl"),
        ("sync", "."),
        ("write", new),
        ("sync", new),
        ("rename", new, "match0.jsonl"),
        ("sync", "."),
    ]
    if [step for step in steps if step in expectation or "match0.jsonl" in step][
        -len(expectation) :
    ] != expectation:
        raise FailedCheckError(f"the calls were {steps}")


def steps_in_turns(stage: Stage) -> List[Step]:
    """What the calls are for of a server of an oblivious match, which an agent enters and
    leaves."""
    schedule = 'version = 3\nschedule = "oblivious"\ndelay_scales = 0\ndelay_odds = 1\n'
    cup = schedule + SEED.replace("version = 2\n", "") + RED
    return steps_of(trace_server(stage, cup, 60, enter("ra") + LEAVE))


@case(
    "turns get their name once their text is on the disk, before the replay has its name"
)
def turns_in_place(stage: Stage) -> None:
    steps = steps_in_turns(stage)
    expectation = [
        ("write", "match0.turns.new"),
        ("sync", "match0.turns.new"),
        ("rename", "match0.turns.new", "match0.turns"),
        ("rename", "match0.jsonl.new", "match0.jsonl"),
    ]
    parts = [
        ("rename", "match0.turns.part", "match0.turns"),
        ("rename", "match0.jsonl.part", "match0.jsonl"),
    ]
    if [
        step
        for step in steps
        if step in (*expectation, *parts) or "match0.turns" in step
    ] != [*parts, *expectation]:
        raise FailedCheckError(f"the calls were {steps}")


@case("the turns of events are on the disk before these are written to the part")
def turns_come_first(stage: Stage) -> None:
    steps = steps_in_turns(stage)
    turns = "match0.turns.part"
    part = "match0.jsonl.part"
    record = [
        step
        for step in steps
        if step[0] in ("write", "sync") and step[1] in (turns, part)
    ]
    # the head is written first, and the end line last
    _, *events, _ = [
        index for index, step in enumerate(record) if step == ("write", part)
    ]
    if not events or any(
        record[event - 2 : event] != [("write", turns), ("sync", turns)]
        for event in events
    ):
        raise FailedCheckError(f"the calls were {steps}")


@case("what is written to the part of each match is on the disk before more is written")
def parts_are_synced(stage: Stage) -> None:
    steps = steps_of(trace_server(stage, SEED + RED + BLUE, 60, enter("ba") + LEAVE))
    for match, least in ((0, 2), (1, 4)):
        part = [
            kind
            for kind, *names in steps
            if names == [f"match{match}.jsonl.part"] and kind != "remove"
        ]
        if len(part) < least or part != ["write", "sync"] * (len(part) // 2):
            raise FailedCheckError(
                f"the calls on the part of match {match} were {part}"
            )


# how many events of a match are written before another match has its turn, and the line
# of a Look in a part
EVENTS_A_TURN = 64
LOOK_LINE = (
    b'{"agent":0,"do":"look","reply":{"board":"","from":null,"ok":"here","ports":2}}\n'
)


@case(
    "matches that have much to write take turns: none waits until another has written all"
)
def parts_take_turns(stage: Stage) -> None:
    cup = (SEED + RED + BLUE).replace("quota = 10", "quota = 1000")
    calls = trace_server(
        stage, cup, 100, *(enter(key) + LOOK * 998 + LEAVE for key in ("ra", "ba"))
    )
    parts = [call for call in calls if call.step[1].endswith(".part")]
    turns = [
        call.step if call.given >= EVENTS_A_TURN * len(LOOK_LINE) else ()
        for call in parts
    ]
    expectation = [("write", f"match{match}.jsonl.part") for match in (0, 1, 0, 1)]
    if not any(
        turns[index : index + len(expectation)] == expectation
        for index in range(len(turns))
    ):
        raise FailedCheckError(f"no two matches took turns: {parts}")


@case("the folder that replays stand in is on the disk")
def folder_is_synced(stage: Stage) -> None:
    (stage.folder / "out").mkdir()
    steps = steps_of(trace_server(stage, SEED + RED, 1, prefix="out/match"))
    if ("sync", "out") not in steps or ("sync", ".") in steps:
        raise FailedCheckError(f"the calls were {steps}")
