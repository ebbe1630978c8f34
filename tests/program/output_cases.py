"""Cases of fault lines, of the help, and of outputs that fail."""
import os
import sys

from tests.program.program_cases import (
    ABSENT,
    CUP,
    REFUSED_WORDS,
    ROAD,
    TRIANGLE,
    case,
    writes,
)
from tests.support.counts import require
from tests.support.program_rows import FAILED_STREAM, Stage, expect

# Words and the help.


@case("names in fault lines are shown")
def names_are_shown(stage: Stage) -> None:
    expect(stage.run(["check", ""]), b"", b"'': read\n" + ABSENT, FAILED_STREAM)
    message = b"x\\ncup.toml: toml\\r\\u{1b}[2J: read\n" + ABSENT
    expect(
        stage.run(["rehearse", "x\ncup.toml: toml\r\x1b[2J"]),
        b"",
        message,
        FAILED_STREAM,
    )


@case("words are UTF-8")
def words_are_utf_8(stage: Stage) -> None:
    message = b"arena: word 2 is no UTF-8\n"
    expect(stage.run([b"check", b"cup\xff.toml", b"\xff"]), b"", message, REFUSED_WORDS)
    long = "é" * 500
    expect(stage.run(["check", long]), b"", f"{long}: read\n".encode(), FAILED_STREAM)


HELP_LINE = "\n  -h, --help\n          Print help (see a summary with '-h')\n"
OUT_OF_MEMORY = "\n  5  Memory ran out\n"
SERVE = "\n\nUsage: arena serve [OPTIONS] <TOURNAMENT>\n"
PORT_HELP = "\n      --port <PORT>\n          The port to listen on, 1 to 65535\n"
REHEARSE = [
    "\n\nUsage: arena rehearse [OPTIONS] [TOURNAMENT]\n",
    OUT_OF_MEMORY,
    """  printf '%s\\n' \\
    '0 {"do":"enter","key":"ka"}' \\
    '0 {"do":"depart","port":0}' \\
    'draw 0 0' | arena rehearse
""",
]
PARTS = {
    "rehearse --help": REHEARSE,
    "help rehearse": REHEARSE,
    "check --help": [
        "\n\nUsage: arena check <TOURNAMENT>\n",
        "\n  match 0 red nodes 3 links 3 agents 2\n",
        OUT_OF_MEMORY,
    ],
    "serve --help": [SERVE, PORT_HELP, "\n  listening 4000\n", OUT_OF_MEMORY],
}


@case("the long help of a command has its usage, an example and the exit status")
def long_help(stage: Stage) -> None:
    for words, parts in PARTS.items():
        result = stage.run(words.split())
        expect(result, result.stdout)
        for part in (*parts, HELP_LINE):
            require(part in result.stdout.decode(), f"{words}: nothing reads {part!r}")


# Streams that fail.

# words, and the script
STREAMS = [(["--help"], ""), (["check", "cup.toml"], ""), (["rehearse"], ROAD)]


def fails_on(stage: Stage, output: int) -> None:
    """Each command tells that this output fails."""
    writes(stage, cup=CUP, tri=TRIANGLE)
    for words, script in STREAMS:
        expect(
            stage.run(words, script.encode(), stdout=output),
            b"",
            b"output: write\n",
            FAILED_STREAM,
        )


@case("an output whose reader is gone is told")
def gone_reader(stage: Stage) -> None:
    reader, writer = os.pipe()
    os.close(reader)
    with os.fdopen(writer, "wb") as output:
        fails_on(stage, output.fileno())


@case("a full output is told")
def full_output(stage: Stage) -> None:
    with open("/dev/full", "wb") as output:
        fails_on(stage, output.fileno())


# Runs a command whose files may have this many bytes. A write beyond them fails, since
# Python ignores the signal of it.
NARROW = """import os, resource, sys
resource.setrlimit(resource.RLIMIT_FSIZE, (int(sys.argv[1]),) * 2)
os.execv(sys.argv[2], sys.argv[2:])"""


@case("an output that has room for some bytes takes these, and is told")
def narrow_output(stage: Stage) -> None:
    writes(stage, cup=CUP, tri=TRIANGLE)
    for words, script in STREAMS:
        whole = stage.run(words, script.encode())
        for room in (0, 1, 3, 7, 36, 49, 50, 100):
            with open(stage.folder / "output", "w+b") as output:
                front = [sys.executable, "-c", NARROW, str(room)]
                result = stage.run(words, script.encode(), front=front, stdout=output)
                output.seek(0)
                result = result._replace(stdout=output.read())
            if room < len(whole.stdout):
                expect(result, whole.stdout[:room], b"output: write\n", FAILED_STREAM)
            else:
                expect(result, whole.stdout)
