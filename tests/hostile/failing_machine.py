"""Runs the program on a machine that fails it: no memory, no files, no stack, full
disks, closed pipes.

    python3 -m tests.hostile.failing_machine PROGRAM

PROGRAM is the built program. Each command is run on the examples, once as it should be,
and then with one thing missing. Each run must end within a minute, by itself, and say
what it says with nothing missing, or the fault that is named here with its status;
nothing else may come, neither on standard output nor on standard error. For each thing
that is missing a line is printed with the number of runs and what came of them, and
then the number of all; the exit status is 1 if a run ended otherwise. Nothing is
written outside a temporary folder.
"""
import collections
import contextlib
import os
import pathlib
import re
import resource
import sys
import tempfile
import threading
from typing import Callable, Counter

from bench.inputs import MIB
from tests.hostile.commands import (
    COMMANDS,
    DONE,
    FAILED_STREAM,
    NO_MEMORY,
    NO_THREADS,
    REFUSED_TEXT,
    SERVE,
    WHOLE_OF_PART,
    Lab,
    Run,
    command_named,
    end_of,
)
from tests.support.servers import Server

# of a server; fewer than connections that the system keeps waiting for it
SESSIONS = 100


def limiter(kind: int, limit: int) -> Callable[[], None]:
    return lambda: resource.setrlimit(kind, (limit, limit))


def no_memory(lab: Lab) -> None:
    """The memory that a process may map: 8 to 64 MiB, by steps of one."""
    counts: Counter = collections.Counter()
    for command in COMMANDS:
        for limit in range(8, 65):
            result = lab.run(command, limiter(resource.RLIMIT_AS, limit * MIB))
            places = {
                "arena",
                "output",
                command.stdin,
                "twin",
                "kept",
                *(f"kept{number}.jsonl" for number in range(4)),
                *command.beside,
                *(word.rpartition("=")[2] for word in command.words[1:]),
            }
            places |= {
                f"examples/{path.name}"
                for path in (lab.folder / "examples").glob("*.toml")
            }
            outcomes = {f"{position}: memory" for position in places}
            lab.expect(
                f"{limit} MiB of memory", command, result, outcomes, NO_MEMORY, counts
            )
    lab.report("8 to 64 MiB of memory", counts)


def no_stack(lab: Lab) -> None:
    counts: Counter = collections.Counter()
    for command in COMMANDS:
        lab.expect(
            "a stack of 256 KiB",
            command,
            lab.run(command, limiter(resource.RLIMIT_STACK, 256 * 1024)),
            set(),
            DONE,
            counts,
        )
    lab.report("a stack of 256 KiB", counts)


def few_files(lab: Lab) -> None:
    """One file can be open beside the three streams: the fewest with which the system
    starts a program."""
    counts: Counter = collections.Counter()
    for command in COMMANDS:
        lab.expect(
            "one open file",
            command,
            lab.run(command, limiter(resource.RLIMIT_NOFILE, 4)),
            set(),
            DONE,
            counts,
        )
    lab.report("one descriptor for files", counts)


def full_disk(lab: Lab) -> None:
    """Standard output on a full disk; a replay on a full disk."""
    counts: Counter = collections.Counter()
    for command in COMMANDS:
        with open("/dev/full", "wb") as full:
            lab.expect(
                "a full disk",
                command,
                lab.run(command, stdout=full),
                {"output: write"},
                FAILED_STREAM,
                counts,
            )
    rehearse = command_named("rehearse")
    kept_folder = lab.folder / "kept0.jsonl"
    kept_folder.unlink()
    kept_folder.symlink_to("/dev/full")
    lab.expect(
        "a replay on a full disk",
        rehearse,
        lab.run(rehearse),
        {"kept0.jsonl: write"},
        FAILED_STREAM,
        counts,
    )
    kept_folder.unlink()
    lab.report("a full disk", counts)


def closed_streams(lab: Lab) -> None:
    """A reader that is gone, and streams that were closed before the program began."""
    counts: Counter = collections.Counter()
    for command in COMMANDS:
        reader, writer = os.pipe()
        os.close(reader)
        result = lab.run(command, stdout=writer)
        os.close(writer)
        lab.expect(
            "a reader that is gone",
            command,
            result,
            {"output: write"},
            FAILED_STREAM,
            counts,
        )
        result = lab.run(command, lambda: os.close(1))
        lab.expect(
            "a closed output", command, result, {"output: write"}, FAILED_STREAM, counts
        )
        result = lab.run(command, lambda: os.close(0))
        lab.expect(
            "a closed input",
            command,
            result,
            {f"{command.stdin}: read"},
            FAILED_STREAM,
            counts,
        )
    lab.report("readers that are gone, and streams that are closed", counts)


def strange_files(lab: Lab) -> None:
    """A folder for a file, no file at all, and a replay that grows while it is read and
    never ends whole."""
    counts: Counter = collections.Counter()
    (lab.folder / "folder").mkdir()
    for command in COMMANDS:
        if not command.reads:
            continue
        for name in ("folder", "none"):
            words = [word.replace(command.reads, name) for word in command.words]
            result = lab.run(command._replace(words=words))
            lab.expect(
                f"{name} for a file",
                command,
                result,
                {f"{name}: read"},
                FAILED_STREAM,
                counts,
            )
    judge = command_named("judge")
    whole = (lab.folder / WHOLE_OF_PART).read_bytes()
    for cut in range(0, len(whole), 997):
        fifo = lab.folder / "grows.jsonl"
        os.mkfifo(fifo)
        feeder = threading.Thread(target=write_front, args=(fifo, whole, cut))
        feeder.start()
        result = lab.run(judge._replace(words=["judge", "grows.jsonl"]))
        feeder.join()
        fifo.unlink()
        lab.expect(
            "a replay that grows",
            judge,
            result,
            {"grows.jsonl: head", "grows.jsonl: end"},
            REFUSED_TEXT,
            counts,
        )
    lab.report(
        "folders, files that are not there, and replays that grow and stop", counts
    )


def write_front(fifo: pathlib.Path, whole: bytes, cut: int) -> None:
    """Writes a front of a text, in two pieces."""
    with contextlib.suppress(BrokenPipeError), open(fifo, "wb") as out:
        out.write(whole[: cut // 2])
        out.flush()
        out.write(whole[cut // 2 : cut])


def serve_limited(lab: Lab, sessions: int, limit: Callable[[], None]) -> Run:
    """Serves the first tournament with a limit, to clients that connect and close."""
    lab.runs += 1
    server = Server(
        [
            lab.program,
            SERVE,
            "examples/first.toml",
            "--sessions",
            sessions,
            "--turns",
            10,
            "--pause",
            1,
            "--replay",
            "served",
        ],
        lab.folder,
        preexec_fn=limit,
    )
    with contextlib.ExitStack() as clients, contextlib.suppress(OSError):
        for _ in range(sessions if server.first else 0):
            clients.enter_context(server.connect())
    run = end_of(server.child)
    return run._replace(stdout=server.first + run.stdout)


# each part takes a descriptor while a contest goes on; without one the replay is whole
# nevertheless
NO_PART = re.compile(
    r"\d+:\d\d:\d\d serve: the part of match \d+ stops after \d+ events: write"
)


def servers(lab: Lab) -> None:
    """A contest of many sessions with little memory, so that threads cannot start, and
    with few descriptors."""
    counts: Counter = collections.Counter()
    limits = [
        ("memory", resource.RLIMIT_AS, limit * MIB)
        for limit in (*range(8, 65, 8), 128, 256, 512, 1024)
    ]
    limits += [
        ("descriptors", resource.RLIMIT_NOFILE, limit) for limit in (4, 5, 6, 8, 16)
    ]
    for what, kind, limit in limits:
        run = serve_limited(lab, SESSIONS, limiter(kind, limit))
        lines = run.stdout.decode(errors="replace").splitlines()
        errors = {line.rpartition(": ")[2] for line in run.stderr.splitlines()}
        if (
            run.status == DONE
            and len(lines) == 6
            and all(map(NO_PART.fullmatch, run.stderr.splitlines()))
        ):
            counts["served without all parts" if errors else "served"] += 1
        elif (run.status, errors) in (
            (NO_MEMORY, {"memory"}),
            (FAILED_STREAM, {"read"}),
            (FAILED_STREAM, {"listen"}),
            (FAILED_STREAM, {"write"}),
            (NO_THREADS, {"threads"}),
        ):
            counts["".join(errors)] += 1
        else:
            lab.faults.append(
                f"a server with {limit} of {what}: status {run.status}, `{run.stderr.strip()[:100]}`"
            )
    lab.report("a server with little memory or few descriptors", counts)


def main() -> int:
    if len(sys.argv) != 2 or sys.argv[1] in ("-h", "--help"):
        sys.exit(__doc__.strip())
    with tempfile.TemporaryDirectory() as name:
        lab = Lab(sys.argv[1], pathlib.Path(name))
        for trial in (
            no_stack,
            few_files,
            full_disk,
            closed_streams,
            strange_files,
            servers,
            no_memory,
        ):
            lab.part(trial, lab)
    return lab.conclude()


if __name__ == "__main__":
    sys.exit(main())
