"""Cases of `bhs_player --module`: what an agent says that runs a module, line by line,
of what a server says, and how it ends. They are skipped where the agents' program is
not built."""
import resource
import socket
import subprocess
import time
import unittest
from typing import List, NamedTuple, Sequence

from tests.program.module_cases import AGAIN, BOARD, CALL, DROP, END, LOOP, running
from tests.program.program_cases import TOP, case
from tests.support.counts import require, wants
from tests.support.program_rows import DONE, Stage, difference, expect
from tests.support.servers import without_warning
from tests.support.wasm_encoding import I32, constant

PLAYER = TOP / "crates" / "bhs_player" / "out" / "bhs_player"
BROKEN = 1
REFUSED_WORDS = 2
ENTER = '{"do":"enter","key":"k"}'
LOOK = '{"do":"look"}'
LEAVE = '{"do":"leave"}'
HERE = '{"board":"ab","from":null,"ok":"here","ports":3}'
GONE = '{"ok":"gone"}'
NOTED = '{"ok":"noted"}'
OVER = '{"ok":"over"}'
ARRIVED = '{"board":"ab","from":1,"ok":"here","ports":2}'
# what the program says of the words by which a server turns a client away
REJECTIONS = {
    "full": "the server has no room for another client now",
    "late": "the first line came too late, or the server needed the room",
    "memory": "the server has no memory for another client now",
    "key": "no agent has this key. Compare it with the tournament's file",
    "taken": "an agent has entered with this key before, and a key serves once",
    "enter": "the agent's first command is another than Enter",
}
# functions that are imported, by their places
IMPORTS = (
    "enter",
    "look",
    "write",
    "depart",
    "accuse",
    "leave",
    "sleep",
    "ports",
    "came",
    "board",
    "argument",
)


class Talk(NamedTuple):
    """Lines of a server, and the lines expected from an agent with this module."""

    hears: List[str]
    says: List[str]
    stderr: str = ""
    status: int = DONE


def call(name: str, *operands: int) -> bytes:
    """Calls a function of `arena` with these numbers."""
    return (
        b"".join(constant(I32, operand) for operand in operands)
        + CALL
        + bytes([IMPORTS.index(name)])
    )


def agent(body: bytes) -> bytes:
    return running(body, *IMPORTS)


def text_of(lines: List[str]) -> bytes:
    return "".join(line + "\n" for line in lines).encode()


def require_player() -> None:
    if not PLAYER.exists():
        raise unittest.SkipTest("the agents' program is not built: `rt ci` builds it")


def plays(
    stage: Stage,
    file: bytes,
    talk: Talk,
    arguments: str = "",
    options: Sequence[str] = (),
) -> None:
    """Checks what an agent that runs this file says, and how it ends."""
    require_player()
    (stage.folder / "agent.wasm").write_bytes(file)
    word = f"agent.wasm:{arguments}" if arguments else "agent.wasm"
    errors = f"bhs_player: {talk.stderr}\n".encode() if talk.stderr else b""
    result = Stage(str(PLAYER), stage.folder).run(
        ["-", "0", "k", *options, "--module", word], text_of(talk.hears)
    )
    expect(result, text_of(talk.says), errors, talk.status)


# An agent that departs by the last port but one, writes the whiteboard's text with one
# byte more, and accuses the port whose number is its arrival port plus its second argument.
GOES = (
    call("enter")
    + DROP
    + call("ports")
    + constant(I32, 2)
    + b"\x6b"
    + CALL
    + b"\x03"
    + DROP
)
WRITES = (
    constant(I32, BOARD)
    + call("board", BOARD, 8)
    + constant(I32, BOARD)
    + call("board", BOARD, 8)
    + constant(I32, 1)
    + b"\x6a"
    + CALL
    + b"\x02"
    + DROP
)
ACCUSES = (
    call("look")
    + DROP
    + call("came")
    + call("argument", 1)
    + b"\x6a"
    + CALL
    + b"\x04"
    + DROP
)


@case("an agent that runs a module says what the module says of what it hears")
def play_lines(stage: Stage) -> None:
    departs = '{"do":"depart","port":1}'
    for text in ("ab", "é→", "\U0001d11e"):
        arrival = ARRIVED.replace("ab", text)
        write = f'{{"do":"write","expect":"{text}","put":"{text}\\u0000"}}'
        plays(
            stage,
            agent(GOES + WRITES + ACCUSES),
            Talk(
                [HERE, GONE, arrival, '{"ok":"written"}', arrival, NOTED],
                [ENTER, departs, write, LOOK, '{"do":"accuse","port":8}'],
            ),
            "5,7",
        )
    cut = ARRIVED.replace("ab", "→→→")
    plays(
        stage,
        agent(GOES + WRITES),
        Talk(
            [HERE, GONE, cut],
            [ENTER, departs],
            f"agent.wasm: command in function {len(IMPORTS)}",
            BROKEN,
        ),
    )


@case("an agent that runs a module hears refusals, and goes on")
def refuse_agents(stage: Stage) -> None:
    for why, number in (("spent", 65_531), ("line", 65_529)):
        mask = constant(I32, 65_535) + b"\x71"
        body = call("enter") + DROP + call("look") + mask + CALL + b"\x04" + DROP
        plays(
            stage,
            agent(body),
            Talk(
                [HERE, f'{{"no":"{why}"}}', NOTED],
                [ENTER, LOOK, f'{{"do":"accuse","port":{number}}}'],
            ),
        )


@case(
    "an agent that runs a module sleeps, wakes by itself and hears that the match is over"
)
def slept(stage: Stage) -> None:
    plays(
        stage,
        agent(call("enter") + DROP + call("sleep") + CALL + b"\x03" + DROP),
        Talk([HERE, OVER], [ENTER, '{"do":"depart","port":0}']),
    )


@case("an agent hears thousands of replies, and what it has forgotten takes no memory")
def many_replies(stage: Stage) -> None:
    body = call("enter") + DROP + LOOP + call("look") + DROP + AGAIN + END
    count = 6_000
    hears = [HERE] * (count + 1) + [OVER]
    talk = Talk(hears, [ENTER, *[LOOK] * (count + 1)])
    before = resource.getrusage(resource.RUSAGE_CHILDREN).ru_maxrss
    plays(stage, agent(body), talk)
    after = resource.getrusage(resource.RUSAGE_CHILDREN).ru_maxrss
    # each memory of the agent has 64 KiB
    require(after <= max(before, 100_000), f"the player took {after} KiB")


@case("an agent says a line of nearly 65,536 bytes")
def long_line(stage: Stage) -> None:
    length = 10_000
    body = call("enter") + DROP + call("write", 0, 0, 0, length) + DROP
    text = "\\u0000" * length
    plays(
        stage,
        agent(body),
        Talk(
            [HERE, '{"ok":"written"}', OVER],
            [ENTER, f'{{"do":"write","expect":"","put":"{text}"}}'],
        ),
    )


@case("an agent hears a line that comes byte by byte")
def in_pieces(stage: Stage) -> None:
    require_player()
    (stage.folder / "agent.wasm").write_bytes(agent(call("enter") + DROP))
    child = subprocess.Popen(
        [PLAYER, "-", "0", "k", "--module", "agent.wasm"],
        cwd=stage.folder,
        stdin=subprocess.PIPE,
        stdout=subprocess.PIPE,
    )
    assert child.stdin is not None
    for byte in text_of([HERE.replace("ab", "x" * 600), OVER]):
        child.stdin.write(bytes([byte]))
        child.stdin.flush()
        time.sleep(0.001)
    stdout, _ = child.communicate()
    difference("what the agent says", text_of([ENTER]), stdout)
    wants("the exit status", child.returncode, DONE)


# what the player reports once an agent has woken too often in a row
ASLEEP = (
    "the agent has woken {} times in a row and read nothing new. It sleeps until its match "
    "is over. --spurious-wakeups lets it wake more often; explore it with the same number"
)


@case("an agent sleeps until its match is over once it has woken too often in a row")
def overslept(stage: Stage) -> None:
    sleep = call("sleep") + DROP
    departs = call("depart", 0) + DROP
    options = ["--spurious-wakeups", "0"]
    plays(
        stage,
        agent(call("enter") + DROP + sleep + sleep + departs),
        Talk([HERE, OVER], [ENTER], ASLEEP.format(1)),
        options=options,
    )
    # a new text lowers the count to the wake-ups since the reply before it
    look = call("look") + DROP
    for text, says, stderr in (
        ("abc", [ENTER, LOOK, LOOK, '{"do":"depart","port":0}'], ""),
        ("ab", [ENTER, LOOK, LOOK], ASLEEP.format(2)),
    ):
        start = time.monotonic()
        plays(
            stage,
            agent(call("enter") + DROP + 2 * (sleep + look) + sleep + departs),
            Talk([HERE, HERE, HERE.replace("ab", text), OVER], says, stderr),
            options=["--spurious-wakeups", "1"],
        )
        # two sleeps end after 1 and 2 seconds, and after the new text it sleeps 2 seconds again
        if text == "abc":
            seconds = time.monotonic() - start
            require(4.9 < seconds < 16, f"the agent slept {seconds:.1f} seconds")
    # a departure begins the count anew
    plays(
        stage,
        agent(call("enter") + DROP + sleep + departs + sleep + look),
        Talk(
            [HERE, GONE, ARRIVED, OVER],
            [ENTER, '{"do":"depart","port":0}', LOOK],
        ),
        options=options,
    )
    # another reply than the end of the match wakes nobody
    plays(
        stage,
        agent(call("enter") + DROP + sleep + sleep + departs),
        Talk(
            [HERE, HERE],
            [ENTER],
            f"{ASLEEP.format(1)}\nbhs_player: a line of the server is no reply",
            BROKEN,
        ),
        options=options,
    )


@case("an agent whose module returns says nothing more")
def module_returns(stage: Stage) -> None:
    body = agent(call("enter") + DROP)
    plays(stage, body, Talk([HERE, OVER], [ENTER]))
    plays(stage, body, Talk([HERE], [ENTER], "the connection is lost", BROKEN))
    plays(
        stage,
        body,
        Talk([HERE, "hello"], [ENTER], "a line of the server is no reply", BROKEN),
    )


@case("an agent breaks off whose module fails, also at its end, and tells how")
def fail_agents(stage: Stage) -> None:
    first = len(IMPORTS)
    for cause, body in (
        ("trap", b"\x00"),
        ("fuel", b"\x03\x40\x0c\x00" + END),
        ("command", call("depart", 65_536) + DROP),
    ):
        text = f"agent.wasm: {cause} in function {first}"
        plays(stage, agent(body), Talk([HERE, OVER], [], text, BROKEN))
        plays(
            stage,
            agent(call("enter") + DROP + body),
            Talk([HERE, OVER], [ENTER], text, BROKEN),
        )
        plays(
            stage,
            agent(call("accuse", 1) + DROP + body),
            Talk([NOTED], ['{"do":"accuse","port":1}'], text, BROKEN),
        )


@case("an agent says why a server turns it away")
def play_rejections(stage: Stage) -> None:
    body = call("enter") + DROP + call("look") + DROP
    for word, why in REJECTIONS.items():
        line = f'{{"no":"{word}"}}'
        plays(stage, agent(body), Talk([line], [ENTER], f"{word}: {why}", BROKEN))
    # inside a match the same words are no replies
    line = "a line of the server is no reply"
    plays(
        stage,
        agent(body),
        Talk([HERE, '{"no":"nothing"}'], [ENTER, LOOK], line, BROKEN),
    )


@case("an agent comes again whom a server turns away for the moment")
def play_again(stage: Stage) -> None:
    require_player()
    (stage.folder / "agent.wasm").write_bytes(agent(call("enter") + DROP))
    with socket.create_server(("127.0.0.1", 0)) as listener:
        listener.settimeout(60)
        words = [str(PLAYER), "127.0.0.1", str(listener.getsockname()[1]), "k"]
        with subprocess.Popen(
            [*words, "--module", str(stage.folder / "agent.wasm")],
            stderr=subprocess.PIPE,
        ) as child:
            for answer in ("full", "late", "memory", "taken"):
                connection, _ = listener.accept()
                with connection, connection.makefile("rb") as reader:
                    require(reader.readline() == ENTER.encode() + b"\n", answer)
                    connection.sendall(f'{{"no":"{answer}"}}\n'.encode())
            errors = without_warning(child.communicate(timeout=60)[1]).decode()
    first_line = (
        f"bhs_player: full: {REJECTIONS['full']}; it tries again, up to 60 times\n"
    )
    last_line = f"bhs_player: taken: {REJECTIONS['taken']}\n"
    wants("the errors", errors, first_line + last_line)
    wants("the status", child.returncode, BROKEN)


@case("an agent is not played whose file is no module, or whose words are not fit")
def not_played(stage: Stage) -> None:
    for file, fault in (
        (b"", "head at byte 0"),
        (running(b"", "look", "puts"), "import arena.puts at byte 38"),
        (running(b"", "\x1b[2J\n"), r"import arena.\u{1b}[2J\n at byte 21"),
    ):
        plays(stage, file, Talk([HERE], [], f"agent.wasm: {fault}", BROKEN))
    for word in (
        "agent.wasm:",
        "agent.wasm:a",
        "agent.wasm:-1",
        "agent.wasm:4294967296",
    ):
        result = Stage(str(PLAYER), stage.folder).run(
            ["-", "0", "k", "--module", word], b""
        )
        difference(
            "the first line",
            b"usage: bhs_player HOST PORT KEY [--spurious-wakeups N] PROTOCOL NODES SIDE",
            result.stderr.splitlines()[0],
        )
        expect(result, b"", result.stderr, REFUSED_WORDS)
    result = Stage(str(PLAYER), stage.folder).run(
        ["-", "0", "k", "--module", "nowhere.wasm"], b""
    )
    expect(
        result,
        b"",
        b"bhs_player: nowhere.wasm: No such file or directory (os error 2)\n",
        BROKEN,
    )
