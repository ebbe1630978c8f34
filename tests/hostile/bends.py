"""How a replay or a script is bent in one place: bytes, numbers, texts or lines."""
import random
import re
from typing import Callable, List, Sequence

from arena_lab.rules.limits import MAX_LINE
from tests.hostile.drawn_inputs import write_line

# bytes that mean something in JSON, and some that are no UTF-8
BYTES = b'"\\{}[]:,0123456789-.eE+ntfu /\r\t\x00\x1f\x7f\x80\xc3\xff aZ'
NUMBERS = (
    b"65535",
    b"65536",
    b"4294967296",
    b"18446744073709551615",
    b"18446744073709551616",
    b"-1",
    b"-0",
    b"1.0",
    b"1e2",
    b"00",
    b"1e400",
    b"9" * 40,
)
NO_UTF8 = (
    b"\xff",
    b"\xc0\x80",
    b"\xed\xa0\x80",
    b"\xf4\x90\x80\x80",
    b"\xc3",
    b"\xe2\x82",
)
REPLIES = (
    b"null",
    b'{"ok":"gone"}',
    b'{"ok":"bye"}',
    b'{"ok":"over"}',
    b'{"ok":"noted"}',
    b'{"ok":"written"}',
    b'{"no":"line"}',
    b'{"no":"away"}',
    b'{"no":"none"}',
    b'{"ok":"none"}',
    b"{}",
    b"[]",
    b'"gone"',
    b"7",
    b'{"board":"a","ok":"changed"}',
    b'{"board":"","from":null,"ok":"here","ports":2}',
    b'{"board":"\\u0041","from":0,"ok":"here","ports":3}',
    b'{"from":null,"board":"","ok":"here","ports":2}',
)
EVENTS = (
    b'{"agent":0,"do":"enter"',
    b'{"agent":1,"do":"look"',
    b'{"agent":0,"do":"deliver"',
    b'{"do":"close"',
    b'{"agent":0,"do":"leave"',
    b'{"agent":0,"do":"bad"',
    b'{"agent":0,"do":"accuse","port":0',
    b'{"agent":0,"do":"jump"',
    b'{"do":"look","agent":0',
    b'{"agent":0,"do":"write","expect":"","put":"a"',
    b'{"agent":9,"do":"look"',
    b'{"agent":0,"agent":0,"do":"look"',
)
REPLY = b',"reply":'
INSTRUCTIONS = (
    b"# a remark",
    b"",
    b" ",
    b"hex 0 ",
    b"hex 0 7",
    b"hex 0 0a",
    b"hex 1 7b0a7b",
    b"hex 1 2\n1 o",
    b"draw 0",
    b"draw 0 4294967295",
    b"draw 0 4294967296",
    b"draw 1 07",
    b"draw 2 0",
    b"draw  0 0",
    b"end 0",
    b"end 256",
    b"close 0",
    b"close 1",
    b"close",
    b"deliver 0 0",
    b"deliver 1 1",
    b"deliver 0 65536",
    b"255 {}",
    b"256 {}",
    b"00 {}",
    b"0",
    b"0 ",
    b"0  \t",
    b"jump 0",
    b"0 \xff",
    b"1 [1,2]",
    b'0 {"do":"write","expect":"","put":""}',
    b'1 {"do":"write","expect":"a","put":"b","put":"c"}',
    b'0 {"do":"write","expect":"","put":"a"} ',
    b'0 {"do":"write","put":"a","expect":""}',
    b'1 {"do":"write","expect":"\\u0061","put":"a\\"b"}',
    b'0 {"do":"write","expect":"","put":7}',
    b'0 {"do":"write","expect":"","put":"a"},"}',
    b'0 {"do":"write","expect":"\x80","put":"a"}',
)
CONN = re.compile(rb"(\d+) (.*)", re.DOTALL)

Bend = Callable[[bytes, random.Random], bytes]


def place_in(text: bytes, rng: random.Random) -> int:
    return rng.randrange(len(text) + 1)


def change(text: bytes, rng: random.Random) -> bytes:
    at = place_in(text, rng)
    return text[:at] + bytes([rng.choice(BYTES)]) + text[at + 1 :]


def insert(text: bytes, rng: random.Random) -> bytes:
    at = place_in(text, rng)
    return text[:at] + bytes([rng.choice(BYTES)]) + text[at:]


def delete(text: bytes, rng: random.Random) -> bytes:
    at = place_in(text, rng)
    return text[:at] + text[at + rng.choice((1, 1, 2, 10)) :]


def double(text: bytes, rng: random.Random) -> bytes:
    at = place_in(text, rng)
    size = rng.choice((1, 2, 20))
    return text[: at + size] + text[at:]


def cut(text: bytes, rng: random.Random) -> bytes:
    return text[: place_in(text, rng)]


def replace_one(
    text: bytes, pattern: bytes, rng: random.Random, new_text: Callable[[bytes], bytes]
) -> bytes:
    """The text with one of the places that match the pattern changed."""
    matches = list(re.finditer(pattern, text))
    if not matches:
        return text
    first = rng.choice(matches)
    return text[: first.start()] + new_text(first[0]) + text[first.end() :]


def zero_in_front(text: bytes, rng: random.Random) -> bytes:
    return replace_one(text, rb"\d+", rng, lambda digits: b"0" + digits)


def other_number(text: bytes, rng: random.Random) -> bytes:
    number = rng.choice((*NUMBERS, str(rng.randrange(12)).encode()))
    return replace_one(text, rb"\d+", rng, lambda _: number)


def space(text: bytes, rng: random.Random) -> bytes:
    blank = rng.choice((b" ", b"\t", b"\r", b"  ", b"\n", b"\x0b", b"\xc2\xa0"))
    return replace_one(
        text,
        rb"[:,{}\[\]]",
        rng,
        lambda mark: rng.choice((mark + blank, blank + mark)),
    )


def escape(text: bytes, rng: random.Random) -> bytes:
    def escape_byte(byte: bytes) -> bytes:
        code = ord(byte)
        return rng.choice(
            (b"\\u%04x" % code, b"\\u%04X" % code, b"\\" + byte, b"\\/", b"\\\\")
        )

    return replace_one(text, rb"[a-zA-Z/]", rng, escape_byte)


def no_utf8(text: bytes, rng: random.Random) -> bytes:
    at = place_in(text, rng)
    return text[:at] + rng.choice(NO_UTF8) + text[at:]


def long_text(text: bytes, rng: random.Random) -> bytes:
    size = rng.choice((31, 32, 33, 255, 4096, 4097, 70_000))
    return replace_one(
        text, rb'"(put|expect|board)":"', rng, lambda key: key + b"a" * size
    )


def on_lines(bend: Callable[[List[bytes], int, random.Random], None]) -> Bend:
    """Makes a bend of a text from a bend of one line other than the last, empty one."""

    def bent(text: bytes, rng: random.Random) -> bytes:
        lines = text.split(b"\n")
        bend(lines, rng.randrange(max(1, len(lines) - 1)), rng)
        return b"\n".join(lines)

    return bent


def swap(lines: List[bytes], at: int, rng: random.Random) -> None:
    second = rng.randrange(len(lines))
    lines[at], lines[second] = lines[second], lines[at]


def drop(lines: List[bytes], at: int, rng: random.Random) -> None:
    del lines[at]


def again(lines: List[bytes], at: int, rng: random.Random) -> None:
    lines.insert(rng.randrange(len(lines)), lines[at])


def carriage_return(lines: List[bytes], at: int, rng: random.Random) -> None:
    last = len(lines) if rng.random() < 0.5 else at + 1
    lines[at:last] = [line + b"\r" for line in lines[at:last]]


def other_reply(lines: List[bytes], at: int, rng: random.Random) -> None:
    event, mark, _ = lines[at].partition(REPLY)
    _, _, another = rng.choice(lines).partition(REPLY)
    lines[at] = event + mark + rng.choice((another, rng.choice(REPLIES) + b"}"))


def other_event(lines: List[bytes], at: int, rng: random.Random) -> None:
    _, mark, reply = lines[at].partition(REPLY)
    another, _, _ = rng.choice(lines).partition(REPLY)
    lines[at] = rng.choice((another, rng.choice(EVENTS))) + mark + reply


def new_event(lines: List[bytes], at: int, rng: random.Random) -> None:
    lines.insert(at, rng.choice(EVENTS) + REPLY + rng.choice(REPLIES) + b"}")


def head(lines: List[bytes], at: int, rng: random.Random) -> None:
    lines[0] = rng.choice(
        (change, delete, zero_in_front, other_number, space, escape, double)
    )(lines[0], rng)


def end(lines: List[bytes], at: int, rng: random.Random) -> None:
    ends = (
        b'{"end":%d}' % rng.randrange(100),
        b'{"end":007}',
        b'{"end": 7}',
        b'{"end":%d}' % 10**30,
        b"",
        b"{}",
    )
    lines[-2:] = [rng.choice(ends), rng.choice((b"", b"x", lines[-1]))]


def new_line(lines: List[bytes], at: int, rng: random.Random) -> None:
    lines.insert(
        at,
        rng.choice((rng.choice(INSTRUCTIONS), write_line(rng.randrange(9), rng))),
    )


def long_line(lines: List[bytes], at: int, rng: random.Random) -> None:
    """Replaces a line by a client's line of about the maximal length."""
    front = b'{"do":"write","expect":"","put":"'
    room = MAX_LINE - len(front) - 2 + rng.choice((-1, 0, 1))
    lines.insert(at, b"%d %s%s" % (rng.randrange(4), front, b"a" * room + b'"}'))


def in_hexadecimal(lines: List[bytes], at: int, rng: random.Random) -> None:
    """What a connection is fed comes as bytes, in two pieces."""
    match = CONN.fullmatch(lines[at])
    if match:
        text = match[2] + rng.choice((b"\n", b"\r\n", b""))
        cut = place_in(text, rng)
        lines[at : at + 1] = [
            b"hex %s %s" % (match[1], piece.hex().encode())
            for piece in (text[:cut], text[cut:])
        ]


BYTE_BENDS: Sequence[Bend] = (
    change,
    insert,
    delete,
    double,
    cut,
    zero_in_front,
    other_number,
    space,
    escape,
    no_utf8,
    long_text,
    *map(on_lines, (swap, drop, again, carriage_return)),
)
REPLAY_BENDS: Sequence[Bend] = (
    *BYTE_BENDS,
    *map(on_lines, (other_reply, other_event, new_event, head, end)),
)
SCRIPT_BENDS: Sequence[Bend] = (
    *BYTE_BENDS,
    *map(on_lines, (new_line, new_line, long_line, in_hexadecimal)),
)
