"""Has the numbers that the kernel gives on one processor go on by numbers that nobody
knows: those of pipes, of sockets, and of memory that processes share. Each processor
counts for itself.

    python3 kernel_noise.py PROCESSOR
"""
import contextlib
import mmap
import os
import random
import socket
import sys

# things of each kind that are made at most: the kernel numbers them one after the other
MAX_OBJECTS = 33_000


def make_pipe() -> None:
    for end in os.pipe():
        os.close(end)


def make_socket() -> None:
    socket.socket(socket.AF_UNIX).close()


def make_memory() -> None:
    mmap.mmap(-1, mmap.PAGESIZE).close()


WAYS = (make_pipe, make_socket, make_memory)


def main(processor: str) -> None:
    # a processor may be taken from this process meanwhile
    with contextlib.suppress(OSError):
        os.sched_setaffinity(0, {int(processor)})
    rng = random.SystemRandom()
    for make in WAYS:
        for _ in range(rng.randrange(MAX_OBJECTS)):
            make()


if __name__ == "__main__":
    main(*sys.argv[1:])
