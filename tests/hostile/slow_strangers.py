"""Looks at a hall while a stranger holds connections that send slowly.

    /usr/bin/python3 -m tests.hostile.slow_strangers PROGRAM [SLOW]

SLOW connections, 2,100 if it is not said, come from 127.0.0.2, half of them with a head
that does not end and half with a body. Each sends a byte every four seconds, and one
that is ended is begun again. 100 browsers look at the hall from 127.0.0.1, as from a
lecture hall's one address, each twice at a page and what it needs, before the stranger
comes and beside him: at the hall by itself, behind nginx, and behind Caddy, as far as
they are installed. It prints for each the slowest look. The last line reads `N passed,
M failed`: a look that takes two seconds more than the slowest before has failed.
"""
import concurrent.futures
import contextlib
import http.client
import multiprocessing
import os
import pathlib
import socket
import sys
import tempfile
import time
from typing import Any, List, Tuple

from tests.support.cases import raise_descriptors
from tests.support.counts import SKIPPED, report_counts
from tests.support.halls import ServedHall
from tests.support.proxies import NAME, Caddy, Nginx, connect

SLOW = 2_100
BROWSERS = 100
LOOKS = 2
PATIENCE = 2.0
STRANGER = "127.0.0.2"
HONEST = "127.0.0.1"
PAGES = ("/login", "/static/hall.css")
# seconds between two bytes, and in which all connections of a stranger are begun
DRIP = 4.0
BEGIN = 120.0
HEAD = f"GET /login HTTP/1.1\r\nHost: {NAME}\r\nX-A: ".encode()
BODY = (
    f"POST /login HTTP/1.1\r\nHost: {NAME}\r\nContent-Type: text/plain\r\n"
    "Content-Length: 60000\r\n\r\n"
).encode() + bytes(5_000)


def open_connection(port: int, address: str, is_encrypted: bool) -> Any:
    if is_encrypted:
        return connect(port, address)
    return socket.create_connection(("127.0.0.1", port), 30, (address, 0))


def attack(port: int, is_encrypted: bool, count: int, over: Any, start: Any) -> None:
    """Holds slow connections until it is over."""
    raise_descriptors()
    held_links: List[Any] = [None] * count
    while not over.is_set():
        rest = time.monotonic() + DRIP
        for number in range(count):
            if over.is_set():
                return
            with contextlib.suppress(OSError):
                if held_links[number] is not None:
                    held_links[number].send(b"a")
                    continue
            with contextlib.suppress(OSError):
                held_links[number] = open_connection(port, STRANGER, is_encrypted)
                held_links[number].settimeout(0)
                held_links[number].send(BODY if number % 2 else HEAD)
        start.set()
        over.wait(max(0.0, rest - time.monotonic()))


def look(port: int, is_encrypted: bool) -> float:
    """The seconds in which a browser has a page, or infinity."""
    start = time.monotonic()
    try:
        connection = http.client.HTTPConnection("127.0.0.1", port)
        connection.sock = open_connection(port, HONEST, is_encrypted)
        with contextlib.closing(connection):
            for page in PAGES:
                connection.request("GET", page, headers={"Host": NAME})
                answer = connection.getresponse()
                answer.read()
                if answer.status != 200:
                    return float("inf")
    except (OSError, http.client.HTTPException):
        return float("inf")
    return time.monotonic() - start


def looks(port: int, is_encrypted: bool) -> List[float]:
    """Returns how long each browser waits for each look, all of them at once."""
    with concurrent.futures.ThreadPoolExecutor(BROWSERS) as pool:
        rounds = [
            list(pool.map(lambda _: look(port, is_encrypted), range(BROWSERS)))
            for _ in range(LOOKS)
        ]
    return [it for outcome_found in rounds for it in outcome_found]


def attack_and_report(
    title: str, port: int, is_encrypted: bool, slow: int
) -> Tuple[int, int]:
    """Prints what browsers wait beside a stranger; gives how many looks were answered
    in time, and how many were not."""
    before = max(looks(port, is_encrypted))
    over = multiprocessing.Event()
    event = multiprocessing.Event()
    words = (port, is_encrypted, slow, over, event)
    stranger = multiprocessing.Process(target=attack, args=words)
    stranger.start()
    try:
        began = event.wait(BEGIN)
        outcome_found = looks(port, is_encrypted)
    finally:
        over.set()
        stranger.join()
    late = sum(it > PATIENCE + before for it in outcome_found)
    middle = sorted(outcome_found)[len(outcome_found) // 2]
    extra = "" if began else ", before all slow connections were there"
    print(
        f"{title}: {len(outcome_found)} looks of {BROWSERS} browsers beside {slow:,} slow "
        f"connections, one in {middle:.2f} s, the slowest in {max(outcome_found):.2f} s, "
        f"before in {before:.2f} s, {late} late{extra}",
        flush=True,
    )
    return len(outcome_found) - late, late


def main(words: List[str]) -> int:
    if len(words) not in (1, 2):
        sys.exit((__doc__ or "").strip())
    os.environ["ARENA_PROGRAM"] = str(pathlib.Path(words[0]).resolve())
    slow = int(words[1]) if len(words) > 1 else SLOW
    raise_descriptors()
    counts = []
    for title, kind in (("by itself", None), ("nginx", Nginx), ("Caddy", Caddy)):
        if kind is not None and kind.program_path() is None:
            print(f"{SKIPPED}slow strangers: {title} is not installed", flush=True)
            continue
        with tempfile.TemporaryDirectory(prefix="hall-") as name:
            folder = pathlib.Path(name)
            extra = f'names = ["{NAME}"]' + ("\nhttps = true" if kind else "")
            hall = ServedHall(folder, extra)
            hall.start()
            proxy = kind(folder, hall.port) if kind else None
            try:
                port = proxy.port if proxy else hall.port
                counts.append(attack_and_report(title, port, proxy is not None, slow))
            finally:
                if proxy:
                    proxy.end()
                hall.stop()
    passes, failures = (sum(it) for it in zip(*counts))
    return report_counts(passes, failures)


if __name__ == "__main__":
    sys.exit(main(sys.argv[1:]))
