"""Cases of the files of a contest: their names and owners, and parts of which a killed
server's replays are recovered."""
import re
import resource
import signal
import time
from typing import Callable, List

from arena_lab.support.ports import free_port
from tests.program.contest_cases import (
    IN_TURNS,
    LONG,
    TWO_TEAMS,
    serve_words,
    start_server,
    table,
)
from tests.program.killed_servers import appeal_to, kills, try_kill
from tests.program.program_cases import TRIANGLE, case, writes
from tests.support.counts import FailedCheckError, require
from tests.support.program_rows import (
    DONE,
    FAILED_STREAM,
    PATIENCE,
    REFUSED_TEXT,
    Stage,
    expect,
)
from tests.support.servers import enter
from tests.support.session_lines import LEAVE


def names(stage: Stage) -> List[str]:
    return sorted(
        path.name for path in stage.folder.iterdir() if path.name.startswith("match")
    )


@case("files of an earlier contest get other names, and parts are gone at the end")
def old_files(stage: Stage) -> None:
    for name in (
        "match0.jsonl",
        "match0.turns",
        "match0.turns.old",
        "match1.jsonl.part",
    ):
        (stage.folder / name).write_text(name)
    with start_server(stage, turns=100, grace=0) as server:
        start = names(stage)
        server.wait_for_end()
    record = [
        "match0.jsonl.old",
        "match0.turns.old",
        "match0.turns.old2",
        "match1.jsonl.part.old",
    ]
    require(
        start == sorted([*record, "match0.jsonl.part", "match1.jsonl.part"]),
        f"at the beginning there are {start}",
    )
    require(
        names(stage) == sorted([*record, "match0.jsonl", "match1.jsonl"]),
        f"at the end there are {names(stage)}",
    )
    for name, was in zip(
        record,
        ("match0.jsonl", "match0.turns.old", "match0.turns", "match1.jsonl.part"),
    ):
        require(
            (stage.folder / name).read_text() == was,
            f"the earlier file {name} is another",
        )


@case("files that appear while a contest goes on get other names at its end")
def files_meanwhile(stage: Stage) -> None:
    with start_server(stage, cup=IN_TURNS, grace=0) as server:
        for name in ("match0.jsonl", "match0.turns"):
            (stage.folder / name).write_text(name)
        server.wait_for_end()
    for name in ("match0.jsonl", "match0.turns"):
        if (stage.folder / f"{name}.old").read_text() != name or (
            stage.folder / name
        ).read_text() == name:
            raise FailedCheckError(f"what appeared as {name} is lost")


@case(
    "only their owner may read the files of a contest, whatever stood under their names"
)
def private_files(stage: Stage) -> None:
    for name in ("match0.jsonl.new", "match1.turns.new"):
        (stage.folder / name).write_text(name)
        (stage.folder / name).chmod(0o666)
    with start_server(stage, cup=IN_TURNS, grace=0) as server:
        parts = [
            (stage.folder / f"match{match}.{kind}.part").stat().st_mode & 0o777
            for match in (0, 1)
            for kind in ("jsonl", "turns")
        ]
        server.wait_for_end()
    modes = {
        name: (stage.folder / name).stat().st_mode & 0o777 for name in names(stage)
    }
    expectation = ("match0.jsonl", "match0.turns", "match1.jsonl", "match1.turns")
    if parts != [0o600] * 4 or modes != dict.fromkeys(expectation, 0o600):
        raise FailedCheckError(
            f"the modes of the parts are {parts}, those of the files {modes}"
        )


@case("a folder that is missing is told before the server says that it listens")
def no_folder(stage: Stage) -> None:
    writes(stage, cup=TWO_TEAMS, tri=TRIANGLE)
    run = stage.run(serve_words(free_port(), "none/match"))
    expect(run, b"", b"none/match0.jsonl.part: write\n", FAILED_STREAM)


@case("a server on a port that is in use leaves the files of the first alone")
def two_servers(stage: Stage) -> None:
    with start_server(stage, turns=LONG) as server:
        words = serve_words(server.port, "match")
        message = b"serve: listen\n  another program listens on this port: end it, or give another --port\n"
        expect(stage.run(words), b"", message, FAILED_STREAM)
        require(
            names(stage) == ["match0.jsonl.part", "match1.jsonl.part"],
            f"there are {names(stage)}",
        )


def wait_for(holds: Callable[[], bool]) -> bool:
    """Returns whether it holds before patience ends."""
    end = time.monotonic() + PATIENCE
    while not holds():
        if time.monotonic() > end:
            return False
        time.sleep(0.02)
    return True


CLOSE = b'{"do":"close","reply":null}\n'


@case("the replay of a match whose server was killed is recovered")
def kill_server(stage: Stage) -> None:
    with start_server(stage, turns=LONG) as server:
        server.hears(enter("ba") + b'{"do":"accuse","port":1}\n')
        part = stage.folder / "match1.jsonl.part"
        require(
            wait_for(lambda: part.read_bytes().count(b"\n") == 3),
            f"the part is {part.read_bytes()!r}",
        )
        server.child.kill()
    whole = part.read_bytes()
    part.write_bytes(whole + b'{"event":"tell","ag')
    run = stage.run(["recover", part.name])
    head, first, second = whole.splitlines(keepends=True)
    closing = head + first + second + CLOSE + b'{"end":3}\n'
    expect(run, closing)
    (stage.folder / "match1.jsonl").write_bytes(run.stdout)
    expect(stage.run(["judge", "match1.jsonl"]), b"guess 1 moves 0 lost 0\n")
    if not stage.run(["recover", "match0.jsonl.part"]).stdout.endswith(
        b"}\n" + CLOSE + b'{"end":1}\n'
    ):
        raise FailedCheckError("the match in which nothing happened is not recovered")


@case(
    "a contest that is still served is not recovered, and one that was killed is finished"
)
def finish_contest(stage: Stage) -> None:
    words = ["recover", "cup.toml", "--replay", "match"]
    whole = ["match0.jsonl", "match0.turns", "match1.jsonl", "match1.turns"]
    with start_server(stage, cup=IN_TURNS, turns=LONG) as server:
        server.hears(enter("ba") + b'{"do":"accuse","port":1}\n')
        part = stage.folder / "match1.jsonl.part"
        require(
            wait_for(lambda: part.read_bytes().count(b"\n") == 3),
            f"the part is {part.read_bytes()!r}",
        )
        expect(stage.run(words), b"", b"match0.jsonl.part: busy\n", FAILED_STREAM)
        require(
            names(stage) == [f"{name}.part" for name in whole],
            f"there are {names(stage)}",
        )
        server.child.kill()
    replay = stage.run(["recover", part.name]).stdout
    ranked_value = table(
        "  1 blue             guess 1         0    0",
        "  2 red              silent          0    0",
    )
    expect(stage.run(words), ranked_value)
    if names(stage) != whole or (stage.folder / "match1.jsonl").read_bytes() != replay:
        raise FailedCheckError(f"there are {names(stage)}")
    if any((stage.folder / name).stat().st_mode & 0o777 != 0o600 for name in whole):
        raise FailedCheckError("others may read what was recovered")
    expect(stage.run(["table", *words[1:]]), ranked_value)
    expect(stage.run(appeal_to(1)), b"guess 1 moves 0 lost 0\n")


@case(
    "a match that is closed has its replay and turns while others go on, and they are there after a kill"
)
def closed_before(stage: Stage) -> None:
    with start_server(stage, "--early", cup=IN_TURNS, turns=LONG) as server:
        for key in ("ba", "bb"):
            server.hears(enter(key) + b'{"do":"accuse","port":1}\n')
        expectation = [
            "match0.jsonl.part",
            "match0.turns.part",
            "match1.jsonl",
            "match1.turns",
        ]
        require(
            wait_for(lambda: names(stage) == expectation), f"there are {names(stage)}"
        )
        server.child.kill()
    require(
        stage.run(["recover", "cup.toml", "--replay", "match"]).status == DONE,
        "the contest is not finished",
    )
    for match in (0, 1):
        require(
            stage.run(appeal_to(match)).status == DONE,
            f"match {match} does not stand its appeal",
        )


@case("a text that is no part is not recovered")
def no_part(stage: Stage) -> None:
    for text, message in ((b"", b"head"), (b'{"version"', b"head"), (b"{}\n", b"head")):
        (stage.folder / "p").write_bytes(text)
        expect(stage.run(["recover", "p"]), b"", b"p: " + message + b"\n", REFUSED_TEXT)


ROOM = 900


def full_disk() -> None:
    """Has each file of a program that is started take no more than this number of
    bytes: writes beyond them fail."""
    signal.signal(signal.SIGXFSZ, signal.SIG_IGN)
    resource.setrlimit(resource.RLIMIT_FSIZE, (ROOM, ROOM))


@case(
    "a part and a replay for which there is no room are told, and the others are there"
)
def no_room(stage: Stage) -> None:
    with start_server(stage, grace=0, limit=full_disk) as server:
        server.hears(enter("ba") + b'{"do":"look"}\n' * 9 + LEAVE)
        run = server.wait_for_end()
        run = run._replace(
            stderr=re.sub(rb"(?m)^\d+:[0-5]\d:[0-5]\d (?=serve: )", b"", run.stderr)
        )
    part = stage.folder / "match1.jsonl.part"
    events = part.read_bytes().count(b"\n") - 1
    text = (
        "serve: the part of match 1 stops after 0 events: write\nmatch1.jsonl: write\n"
    )
    expect(
        run,
        table(
            "  1 blue             silent          0    0",
            "  2 red              silent          0    0",
        ),
        text.encode(),
        FAILED_STREAM,
    )
    if names(stage) != ["match0.jsonl", "match1.jsonl.part"] or not 0 < events < 11:
        raise FailedCheckError(f"there are {names(stage)}, with {events} events")
    expect(stage.run(["judge", "match0.jsonl"]), b"silent moves 0 lost 0\n")
    recovery = stage.run(["recover", part.name]).stdout
    require(
        recovery.endswith(CLOSE + b'{"end":%d}\n' % (events + 1)),
        f"recovered is {recovery!r}",
    )


@case("a part for which there was no room is recovered with the turns of its events")
def no_room_for_events(stage: Stage) -> None:
    with start_server(stage, cup=IN_TURNS, grace=0, limit=full_disk) as server:
        server.hears(enter("ba") + b'{"do":"look"}\n' * 9 + LEAVE)
        server.wait_for_end()
    if names(stage) != [
        "match0.jsonl",
        "match0.turns",
        "match1.jsonl.part",
        "match1.turns",
    ]:
        raise FailedCheckError(f"there are {names(stage)}")
    for match in (0, 1):
        if (
            match == 1
            and stage.run(["recover", "cup.toml", "--replay", "match"]).status != DONE
        ):
            raise FailedCheckError("the contest is not finished")
        expect(stage.run(appeal_to(match)), b"silent moves 0 lost 0\n")


@case("servers that are killed leave what happened")
def killed_servers(stage: Stage) -> None:
    for number, kill in enumerate(kills(4, seed=0)):
        folder = stage.folder / str(number)
        folder.mkdir()
        try:
            try_kill(stage.program, kill, folder)
        except FailedCheckError as error:
            raise FailedCheckError(
                f"killed after {kill.after:.3f} s: {error}"
            ) from error
