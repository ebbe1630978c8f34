"""What the operator of a contest is told, and whom a server cuts off: tests for what no
contract says.

    python3 -m tests.hostile.operators PROGRAM [TEXT]

Each case serves a contest in a temporary folder; with TEXT only those whose titles have
it. They run beside each other, since most of them wait. A line for each says how it
went, and the last line reads `N passed, M failed`. It takes about a minute, which is
how long the line of a minute takes.
"""
import contextlib
import os
import pathlib
import re
import subprocess
import sys
import time

from arena_lab.rules.delays import Delays
from arena_lab.rules.networks import ring
from tests.hostile import cut_off_clients
from tests.hostile.operated_servers import (
    ACCUSE,
    CASES,
    LONG,
    status_text,
    case,
    match_groups,
    heard,
    on_ring,
    start_server,
)
from tests.hostile.two_teams import TEAMS, answer, serving, tournament
from tests.program.killed_servers import appeal_to
from tests.support.counts import FailedCheckError, require, wants
from tests.support.servers import enter, serve
from tests.support.session_lines import DEPART, HERE, LEAVE, LOOK
from tests.support.tournaments import match

# adds its cases to CASES
FILES = (cut_off_clients,)


# ---- what is told


@case(
    "with --log the verdict on a match of many events is that of the table, when it closes and in the status"
)
def many_events(program: str, folder: pathlib.Path) -> None:
    with heard(program, folder, "--log") as server, server.connect(
        enter("red-0") + LOOK * 200 + ACCUSE
    ) as client:
        answer(client, 201 * len(HERE))
        time.sleep(1)
        now = status_text(server)
        server.says(b"close\n")
        _status, output, errors = server.wait_for_end().texts()
    line = next(
        line for line in (now + errors).splitlines() if "match 0 (red) closed" in line
    )
    row = next(line for line in output.splitlines() if " red " in line).split()
    require(row[2] in line, f"{row} and {line!r}")
    stands = next(line for line in now.splitlines() if " red " in line).split()
    wants("the row of the status", stands[1:], row[1:])
    events = (folder / "match0.jsonl").read_text().count("\n") - 2
    wants("events", match_groups(r"events (\d+)", line)[0], str(events))


@case("the status is told once for each line that asks for it")
def status_once(program: str, folder: pathlib.Path) -> None:
    with heard(program, folder) as server:
        status_text(server)
        time.sleep(2.5)
        server.says(b"close\n")
        errors = server.wait_for_end().texts()[2]
    require("serve: sessions" not in errors, errors)


@case("the status ranks each match by its own verdict")
def own_verdicts(program: str, folder: pathlib.Path) -> None:
    with heard(program, folder, "--log") as server, server.connect(
        enter("blue-1") + ACCUSE
    ) as client, server.connect(enter("red-0")) as second:
        answer(client, len(HERE) + 14)
        answer(second, len(HERE))
        server.says(b"close 0\n")
        server.tells("match 0 (red) closed")
        rows = [
            line.split()[:3]
            for line in status_text(server).splitlines()
            if re.match(r" +[12] ", line)
        ]
    wants("rows", rows, [["1", "red", "silent"], ["2", "blue", "wrong"]])


@case("the status tells the turns of each match")
def own_turns(program: str, folder: pathlib.Path) -> None:
    with heard(
        program, folder, "--gather", "1000000"
    ) as server, contextlib.ExitStack() as stack:
        for agent in range(2):
            answer(
                stack.enter_context(server.connect(enter(f"blue-{agent}"))), len(HERE)
            )
        time.sleep(1)
        log = status_text(server)
    red_team, blue = (
        int(match_groups(rf"\({team}\) is open: turns (\d+)", log)[0]) for team in TEAMS
    )
    if red_team or not blue:
        raise FailedCheckError(f"red has taken {red_team} turns, and blue {blue}")


@case(
    "a match begins without agents that are missing after the time of --gather, and not before"
)
def gathers_as_long_as_said(program: str, folder: pathlib.Path) -> None:
    def turns() -> int:
        return int(
            match_groups(r"\(red\) is open: turns (\d+)", status_text(server))[0]
        )

    with heard(program, folder, "--gather", "24000") as server, server.connect(
        enter("red-0")
    ) as client:
        answer(client, len(HERE))
        time.sleep(22)
        wants("turns after 22 s", turns(), 0)
        time.sleep(5)
        require(turns(), "the match has not begun after 27 s")


@case("the status tells the events of each match")
def own_events(program: str, folder: pathlib.Path) -> None:
    with heard(program, folder) as server, server.connect(
        enter("red-0") + LOOK * 20
    ) as client:
        answer(client, 21 * len(HERE))
        time.sleep(1.2)
        log = status_text(server)
    wants(
        "events",
        match_groups(r"\(red\) is open: turns \d+ of \d+ events (\d+)", log)[0],
        "21",
    )


@case("the status tells the turns after which a match was closed")
def turns_of_a_closed_match(program: str, folder: pathlib.Path) -> None:
    with heard(program, folder, "--log") as server:
        time.sleep(0.5)
        server.says(b"close 1\n")
        log = server.tells("match 1 (blue) closed") + status_text(server)
    closing = match_groups(r"match 1 \(blue\) closed: turns (\d+) events (\d+)", log)
    wants(
        "turns and events",
        match_groups(r"match 1 \(blue\) is closed: turns (\d+) events (\d+)", log),
        closing,
    )


@case("the status has a line for each of three matches")
def status_of_three(program: str, folder: pathlib.Path) -> None:
    with start_server(program, folder, on_ring("red", "blue", "green")) as server:
        log = status_text(server, 3)
    wants("matches", log.count(" is open: turns "), 3)


@case("a match that is closed is not closed again")
def closed_once(program: str, folder: pathlib.Path) -> None:
    with heard(program, folder, "--log", "--early") as server:
        for agent in range(2):
            with server.connect(enter(f"blue-{agent}") + LEAVE) as client:
                answer(client, 200)
        server.tells("match 1 (blue) closed")
        server.says(b"close 1\n")
        log = status_text(server)
    require("the operator closes match 1" not in log, log)


@case("the lines of the log have the times since the server began")
def times_of_the_log(program: str, folder: pathlib.Path) -> None:
    with heard(program, folder, "--log") as server:
        time.sleep(2.2)
        server.says(b"close\n")
        errors = server.wait_for_end().texts()[2]
    match_groups(r"^(0:00:0[2-9]) serve: the operator closes all", errors)


@case("with --log it is told each minute how far the matches are")
def each_minute(program: str, folder: pathlib.Path) -> None:
    with serving(program, folder, "--log", turns=LONG) as server:
        until = time.monotonic() + 75
        message = b""
        os.set_blocking(server.child.stderr.fileno(), False)
        while time.monotonic() < until and b"is open: turns" not in message:
            message += server.child.stderr.read() or b""
            time.sleep(0.5)
    require(b"is open: turns" in message, message.decode())


@case("of a hundred strangers each is told or counted, and only once")
def strangers(program: str, folder: pathlib.Path) -> None:
    with heard(program, folder, "--log") as server:
        for _ in range(100):
            with server.connect(b"x\n") as client:
                answer(client, 100)
        reply = server.tells("more clients played nobody")
        time.sleep(11)
        server.says(b"close\n")
        reply += server.wait_for_end().texts()[2]
    lines = reply.count("it was denied")
    extra = sum(int(count) for count in re.findall(r"serve: (\d+) more clients", reply))
    require(lines + extra == 100, f"{lines} lines and {extra} more")


# ---- files


@case("the part of each match has the head of that match")
def heads_of_parts(program: str, folder: pathlib.Path) -> None:
    matches = [match(team, ring(8), [hole]) for team, hole in zip(TEAMS, (4, 5))]
    with start_server(program, folder, matches) as server, server.connect(
        enter("blue-0")
    ) as client:
        answer(client, len(HERE))
        time.sleep(1)
    for number, hole in ((0, 4), (1, 5)):
        recovery = subprocess.run(
            [program, "recover", f"match{number}.jsonl.part"],
            cwd=folder,
            text=True,
            stdout=subprocess.PIPE,
        ).stdout
        wants(
            f"the head of match {number}",
            f'"holes":[{hole}]' in recovery.split("\n")[0],
            True,
        )


@case("a part that a killed server has left keeps nobody out, and is kept")
def part_left_behind(program: str, folder: pathlib.Path) -> None:
    with serving(program, folder, turns=LONG):
        pass
    wants("the part that is left", (folder / "match0.jsonl.part").exists(), True)
    server = serve(program, folder, turns=1)
    wants("the next server", server.wait_for_end()[0], 0)
    wants(
        "the files",
        sorted(path.name for path in folder.glob("match0*")),
        ["match0.jsonl", "match0.jsonl.part.old"],
    )


@case(
    "two prefixes whose files meet are not served beside each other, and no file is touched"
)
def prefixes_that_meet(program: str, folder: pathlib.Path) -> None:
    with start_server(
        program, folder, on_ring(*(f"t{number}" for number in range(12)))
    ) as server:
        with server.connect(enter("t10-0") + LOOK) as client:
            wants("an agent", answer(client, 2 * len(HERE)), HERE + HERE)
            time.sleep(1.5)
            before = (folder / "match10.jsonl.part").read_bytes()
            (folder / "match12.jsonl").write_text("of another evening")
            status, output, errors = (
                serve(program, folder, prefix="match1", turns=1).wait_for_end().texts()
            )
        wants("the second server", (status, output), (6, ""))
        wants("what it told", errors.splitlines()[-1], "match10.jsonl.part: busy")
        wants("the part", (folder / "match10.jsonl.part").read_bytes(), before)
        wants(
            "another file", (folder / "match12.jsonl").read_text(), "of another evening"
        )
        server.says(b"close\n")
        wants("the first server", server.wait_for_end()[0], 0)
    wants(
        "the looks of match 10",
        (folder / "match10.jsonl").read_text().count('"do":"look"'),
        1,
    )


@case(
    "a match that is closed has its replay while others go on, and it is there after a kill"
)
def replay_at_close(program: str, folder: pathlib.Path) -> None:
    with heard(program, folder) as server, server.connect(
        enter("red-0") + ACCUSE
    ) as client:
        answer(client, 2 * len(HERE))
        server.says(b"close 0\n")
        time.sleep(2)
        wants(
            "the files of match 0",
            sorted(path.name for path in folder.glob("match0*")),
            ["match0.jsonl"],
        )
        second = (
            serve(program, folder, turns=1).wait_for_end().texts()[2].splitlines()[-1]
        )
        wants("what another server told", second, "match0.jsonl.part: busy")
    rows = subprocess.run(
        [program, "table", "red=match0.jsonl"],
        cwd=folder,
        text=True,
        stdout=subprocess.PIPE,
    )
    wants("the row of red", rows.stdout.splitlines()[1].split()[1:3], ["red", "wrong"])


@case("what stands in a replay when its match closes is what stands there at the end")
def replay_stays(program: str, folder: pathlib.Path) -> None:
    with heard(program, folder) as server, server.connect(
        enter("red-0") + LOOK * 100 + LEAVE
    ) as client:
        answer(client, 101 * len(HERE))
        server.says(b"close 0\n")
        time.sleep(2)
        data = (folder / "match0.jsonl").read_bytes()
        server.says(b"close\n")
        wants("the status", server.wait_for_end()[0], 0)
    wants("the replay at the end", (folder / "match0.jsonl").read_bytes(), data)
    wants(
        "the files",
        sorted(path.name for path in folder.glob("match*")),
        ["match0.jsonl", "match1.jsonl"],
    )


@case("a file of the user's with the name of a prefix is left alone")
def lock_of_the_user(program: str, folder: pathlib.Path) -> None:
    tournament(folder)
    (folder / "match.lock").write_text("mine")
    wants("the server", serve(program, folder, turns=1).wait_for_end()[0], 0)
    wants("the file", (folder / "match.lock").read_text(), "mine")


@case(
    "each match can be appealed with the turns of its number, and earlier turns are kept"
)
def turns_of_each_match(program: str, folder: pathlib.Path) -> None:
    for _ in range(2):
        with start_server(
            program, folder, on_ring(*TEAMS), Delays(2, 2), turns=1500
        ) as server:
            for team, steps in (("red", 3), ("blue", 1)):
                with server.connect(
                    enter(f"{team}-0") + DEPART * steps + LEAVE
                ) as client:
                    answer(client, 10_000)
            wants("the status", server.wait_for_end()[0], 0)
        for number in range(2):
            result = subprocess.run(
                [program, *appeal_to(number)], cwd=folder, capture_output=True
            )
            wants(f"the appeal of match {number}", result.returncode, 0)
    wants(
        "files of turns",
        sorted(path.name for path in folder.glob("match*turns*")),
        ["match0.turns", "match0.turns.old", "match1.turns", "match1.turns.old"],
    )


if __name__ == "__main__":
    sys.exit(CASES.command(__doc__, sys.argv[1:]))
