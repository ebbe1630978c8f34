"""The words of a tournament: those of ChaCha8, by its definition and apart from the
arena's code.

A key of 32 bytes, a 64-bit block counter in words 12 and 13 of the state, a 64-bit
stream in words 14 and 15, 8 rounds.

    python3 -m arena_lab.rules.chacha8

prints the words that the tests of bhs_deliveries expect.
"""
import functools
import struct
from typing import List, Sequence

MASK = 0xFFFFFFFF
WORDS_OF_A_BLOCK = 16
WORDS_OF_A_STREAM = 2**68
STREAMS = 2**64
# how much longer than an agent's number a match's number may be
MATCH_BITS = 32


def rotate(x: int, k: int) -> int:
    return ((x << k) | (x >> (32 - k))) & MASK


def quarter(s: List[int], a: int, b: int, c: int, d: int) -> None:
    for a_index, b_index, target, k in (
        (a, b, d, 16),
        (c, d, b, 12),
        (a, b, d, 8),
        (c, d, b, 7),
    ):
        s[a_index] = (s[a_index] + s[b_index]) & MASK
        s[target] = rotate(s[target] ^ s[a_index], k)


@functools.lru_cache(maxsize=256)
def block(seed: bytes, stream: int, counter: int) -> Sequence[int]:
    start = list(struct.unpack("<4I", b"expand 32-byte k")) + list(
        struct.unpack("<8I", seed)
    )
    start += [counter & MASK, counter >> 32, stream & MASK, stream >> 32]
    s = list(start)
    for _ in range(4):
        for q in ((0, 4, 8, 12), (1, 5, 9, 13), (2, 6, 10, 14), (3, 7, 11, 15)):
            quarter(s, *q)
        for q in ((0, 5, 10, 15), (1, 6, 11, 12), (2, 7, 8, 13), (3, 4, 9, 14)):
            quarter(s, *q)
    return tuple((x + y) & MASK for x, y in zip(s, start))


def word(seed: bytes, stream: int, index: int) -> int:
    index %= WORDS_OF_A_STREAM
    return block(seed, stream, index // WORDS_OF_A_BLOCK)[index % WORDS_OF_A_BLOCK]


def turn_word(seed: bytes, match: int, turn: int) -> int:
    """The word of a turn of a match."""
    return word(seed, match, turn)


def delay_word(seed: bytes, match: int, agent: int, turn: int) -> int:
    """The word for the delay of an agent of a match that departs after this many
    turns."""
    return word(seed, (match + ((agent + 1) << MATCH_BITS)) % STREAMS, turn)


def show(seed: bytes, stream: int, places: Sequence[int]) -> None:
    print(f"seed {seed[:1].hex()}.. stream {stream}")
    for index in places:
        print(f"  {index}: 0x{word(seed, stream, index):08x}")


if __name__ == "__main__":
    # The key stream of ChaCha8 at a key and a nonce of zeros, as remembered and not
    # looked up.
    assert (
        struct.pack("<3I", *block(bytes(32), 0, 0)[:3]).hex()
        == "3e00ef2f895f40d67f5bb8e8"
    )
    show(bytes(32), 0, range(8))
    show(bytes(32), 1, range(8))
    show(b"\x07" * 32, 3, list(range(8)) + [15, 16, 17, 63, 64, 65])
    show(bytes(32), 2**64 - 1, range(4))
    show(bytes(range(32)), 3, range(4))
