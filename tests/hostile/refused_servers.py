"""A server with one call refused, its client that plays and its one of a wrong key."""
import contextlib
import json
import pathlib
import re
import socket
import time
from typing import Dict, List, NamedTuple, Optional, Sequence

from tests.hostile.commands import DONE, SERVE, Lab, Run, end_of
from tests.hostile.refused_calls import (
    MODES,
    Trials,
    fault_of,
    judge,
    kind_of,
    places,
    replays_in,
    room_of,
)
from tests.program.program_cases import CUP, TRIANGLE
from tests.support.counts import FailedCheckError, require
from tests.support.servers import Server
from tests.support.session_lines import HERE, OVER

# messages about a part or a log line that was not written; they affect nothing else
CUT_PART = re.compile(
    r"(\d+:\d\d:\d\d serve: (the part of match 0 (stops after \d+ events: write"
    r"|goes on after \d+ events)|\d+ lines were dropped here, since nobody read the log)\n)+"
)
# seconds, of a server that takes a third of one
SOON = 60
SAID = [b'{"do":"enter","key":"ka"}\n{"do":"look"}\n', b'{"do":"enter","key":"zz"}\n']
# replies that each client may hear; the first may also hear that the match is over
WHOLE = [[HERE + HERE, HERE + OVER, OVER], [b'{"no":"key"}\n']]
# reply of a session without memory
NO_MEMORY_LINE = b'{"no":"memory"}\n'


class Contest(NamedTuple):
    """What came of a server, what its clients heard, the replays that it left, its
    calls, and how long it took."""

    run: Run
    heard: List[bytes]
    replays: Dict[str, bytes]
    numbers: Dict[str, int]
    seconds: float


def hears(port: int, text: bytes) -> bytes:
    """What a client hears that says this and ends its input."""
    heard = b""
    with contextlib.suppress(OSError), socket.create_connection(
        ("127.0.0.1", port), timeout=SOON
    ) as client:
        client.sendall(text)
        client.shutdown(socket.SHUT_WR)
        while True:
            piece = client.recv(4096)
            if not piece:
                break
            heard += piece
    return heard


def serve_twice(
    program: str, folder: pathlib.Path, variables: Dict[str, str]
) -> Contest:
    """Serves a contest in a folder to two clients, one behind the other. What is
    printed has N for the port."""
    words = [
        program,
        SERVE,
        "cup.toml",
        "--sessions",
        2,
        "--turns",
        40,
        "--pause",
        5,
        "--replay",
        "kept",
    ]
    server = Server(words, folder, env=variables)
    heard = [
        hears(server.port, message) if server.first.endswith(b"\n") else b""
        for message in SAID
    ]
    run = end_of(server.child)
    seconds = time.monotonic() - server.begun
    output = (server.first + run.stdout).replace(
        b"listening %d\n" % server.port, b"listening N\n"
    )
    return Contest(run._replace(stdout=output), heard, replays_in(folder), {}, seconds)


def serve_refused(trials: Trials, mode: str = "", index: int = 0) -> Contest:
    """Serves a contest with this call refused, or none; again where another took the
    port meanwhile."""
    for _ in range(5):
        numbers: Dict[str, int] = {}
        with room_of(trials.lab) as room, trials.shim.counting(
            numbers, mode, index
        ) as variables:
            (room / "tri.toml").write_text(TRIANGLE)
            (room / "cup.toml").write_text(CUP)
            contest = serve_twice(trials.lab.program, room, variables)._replace(
                numbers=numbers
            )
        if not contest.run.stderr.startswith("serve: listen\n"):
            break
    return contest


def answers_of(replay: bytes) -> bytes:
    """The lines that the agents of a replay were answered."""
    events = [json.loads(line) for line in replay.splitlines()[1:-1]]
    lines = [
        json.dumps(event["reply"], sort_keys=True, separators=(",", ":"))
        for event in events
        if event["reply"]
    ]
    return "".join(f"{line}\n" for line in lines).encode()


def cut_sessions(heard: Sequence[bytes]) -> int:
    """Returns how many clients heard less than all, and nothing else."""
    for number, (text, wholes) in enumerate(zip(heard, WHOLE)):
        if text != NO_MEMORY_LINE and not any(
            whole.startswith(text) for whole in wholes
        ):
            raise FailedCheckError(f"client {number} heard `{text!r}`")
    return sum(text not in wholes for text, wholes in zip(heard, WHOLE))


def check_replay(contest: Contest, lab: Lab, text: str) -> Optional[bytes]:
    """Returns the table of the server's replay (None without a replay), which must
    contain all replies; "" if the client heard that memory is lacking."""
    replay = contest.replays.get("kept0.jsonl", b"")
    table = judge(lab, replay, "table", "red=left.jsonl")
    if table is None:
        return None
    record = answers_of(replay)
    heard = contest.heard[0]
    if heard == NO_MEMORY_LINE:
        require(
            not record, f"client 0 plays and is told that there is no memory: {text}"
        )
        return table
    answers = heard.replace(OVER, b"")
    require(
        record.startswith(answers[: answers.rfind(b"\n") + 1]),
        f"client 0 heard what its replay has not: {text}",
    )
    return table


def served_outcome(mode: str, contest: Contest, lab: Lab) -> str:
    """What came of a contest with a call refused."""
    run = contest.run
    errors = f"status {run.status}, `{run.stderr.strip()[:200]}`, printed `{run.stdout!r}`, heard `{contest.heard}`"
    require(contest.seconds <= SOON, f"it took {contest.seconds:.0f} seconds: {errors}")
    cut = cut_sessions(contest.heard)
    table = check_replay(contest, lab, errors)
    if run.status == DONE and (not run.stderr or CUT_PART.fullmatch(run.stderr)):
        if table is None or run.stdout != b"listening N\n" + table:
            raise FailedCheckError(f"the table is not that of the replay: {errors}")
        if cut > 1 or (cut and mode.startswith("short")):
            raise FailedCheckError(f"{cut} clients heard too little: {errors}")
        missed_value = "" if contest.numbers["refused"] else " (call not made)"
        return (
            "a part cut" if run.stderr else "a session cut" if cut else "as ever"
        ) + missed_value
    require(not mode.startswith("short"), f"a short call made a difference: {errors}")
    return served_fault(mode, contest, table, errors)


def served_fault(mode: str, contest: Contest, table: Optional[bytes], text: str) -> str:
    """What came of a contest whose server tells a fault."""
    where = fault_of(mode, contest.run)
    may_name = {
        "read": {"cup.toml", "tri.toml"},
        "write": {"output", "kept0.jsonl", "kept0.jsonl.part"},
        "memory": {
            "arena",
            "serve",
            "output",
            "cup.toml",
            "tri.toml",
            "kept",
            "kept0.jsonl",
            "kept0.jsonl.part",
        },
    }[mode]
    require(where in may_name, f"it names another place: {text}")
    lines = contest.run.stdout.splitlines(keepends=True)
    if lines[:1] not in ([], [b"listening N\n"]) and not b"listening N\n".startswith(
        contest.run.stdout
    ):
        raise FailedCheckError(f"another text was printed: {text}")
    if where == "kept0.jsonl" and (
        len(lines) != 3 or not lines[2].startswith(b"  1 red ")
    ):
        raise FailedCheckError(f"a replay keeps the table back: {text}")
    if table is not None and not (b"listening N\n" + table).startswith(
        contest.run.stdout
    ):
        raise FailedCheckError(f"the table is not that of the replay: {text}")
    return f"{where.rpartition('/')[2]}: {mode}"


def refuse_server(trials: Trials) -> None:
    """Runs a server with calls of each kind refused."""
    contest = serve_refused(trials)
    try:
        require(
            served_outcome("short", contest, trials.lab) == "as ever (call not made)",
            str(contest),
        )
    except FailedCheckError as why:
        trials.lab.faults.append(f"serve with nothing refused: {why}")
    for mode in MODES:
        number = contest.numbers[kind_of(mode)]
        trials.alike(
            lambda index: served_outcome(
                mode, serve_refused(trials, mode, index), trials.lab
            ),
            places(number, trials.most_served),
            f"serve, {mode} of {number}",
            f"serve, {mode}",
        )
