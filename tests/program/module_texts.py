"""Cases of modules that write: any text in UTF-8, other bytes, and too long lines."""
from tests.program.module_cases import (
    BOARD,
    CALL,
    DROP,
    END,
    FAILING,
    FILL,
    running,
    run_module,
)
from tests.program.program_cases import case
from tests.support.program_rows import Stage, FailedCheckError
from tests.support.wasm_encoding import I32, Function, constant, module

LOAD64 = b"\x29\x00\x00"
# texts of at most 8 bytes in UTF-8: the least and the greatest character of each length
TEXTS = [
    it.encode()
    for it in (
        "",
        "\0\x7f",
        "\x80\u07ff",
        "\u0800\ud7ff",
        "\ue000\uffff",
        "\U00010000\U0010ffff",
    )
]
# a byte that begins no character, too many bytes for a character, a surrogate, too
# large a character, a part of one
NOT_TEXTS = (
    b"\x80",
    b"\xc0\x80",
    b"\xe0\x80\x80",
    b"\xed\xa0\x80",
    b"\xf4\x90\x80\x80",
    b"a\xc3",
)


@case("agents write and read any text in UTF-8, and fail with bytes that are not UTF-8")
def texts(stage: Stage) -> None:
    for text, result in (
        *((text, b"silent") for text in TEXTS),
        *((text, b"command") for text in NOT_TEXTS),
    ):
        run = run_module(stage, writing(text))
        if run.status != FAILING or result not in run.stdout:
            raise FailedCheckError(
                f"{text!r}: {run.status}: {run.stdout!r} {run.stderr!r}"
            )


def writing(text: bytes) -> bytes:
    """A module that writes a text, and traps if the whiteboard does not show it
    then."""
    enters, writes_it, looks, shows = (CALL + bytes([index]) for index in range(4))
    new_text = constant(I32, 0) * 3 + constant(I32, len(text)) + writes_it + DROP
    observations = (
        constant(I32, BOARD) * 2
        + constant(I32, 8)
        + shows
        + DROP
        + LOAD64
        + constant(I32, 0)
        + LOAD64
    )
    body = (
        enters
        + DROP
        + new_text
        + looks
        + DROP
        + observations
        + b"\x52\x04\x40\x00"
        + END
    )
    return module(
        [Function([], [], body, "run")], ["enter", "write", "look", "board"], data=text
    )


@case("agents fail whose Write makes a line of more than 65,536 bytes, with escapes")
def long_lines(stage: Stage) -> None:
    room = 65_536 - len('{"do":"write","expect":"","put":""}')
    for byte, width in ((0x61, 1), (0x22, 2), (0, 6)):
        limit = room // width
        for old in (0, limit // 2, limit):
            for extra, result in (
                (0, b'"outcome":"silent"'),
                (1, b'"failure":"command"'),
            ):
                run = run_module(stage, filling(byte, old, limit - old + extra))
                if run.status != FAILING or result not in run.stdout:
                    raise FailedCheckError(f"{byte}, {old}, {extra}: {run.stdout!r}")


def filling(byte: int, expect: int, new_text: int) -> bytes:
    """A module that enters and says one Write, which expects a text of `expect` bytes
    and puts one of `put` bytes. All are this byte."""
    enters, writes_it = (CALL + bytes([index]) for index in range(2))
    fills = constant(I32, 0) + constant(I32, byte) + constant(I32, 65_536) + FILL
    texts = (constant(I32, 0) + constant(I32, length) for length in (expect, new_text))
    body = enters + DROP + fills + b"".join(texts) + writes_it + DROP
    return running(body, "enter", "write")
