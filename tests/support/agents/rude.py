"""Agents' programs that keep to no rule: `python3 rude.py HOW HOST PORT KEY`. What
`silent:MARK` starts has the word MARK, by which a test finds it."""
import json
import os
import socket
import subprocess
import sys
import time

HOURS = 10_000


def main() -> None:
    how, host, port, key = sys.argv[1:]
    how, _, mark = how.partition(":")
    enter = json.dumps({"do": "enter", "key": key}).encode() + b"\n"
    if how == "dies":
        sys.exit("no such map")
    server = socket.create_connection((host, int(port)))
    if how == "silent":
        # the lab must end this child too
        subprocess.Popen(
            [sys.executable, "-c", f"import time; time.sleep({HOURS})", mark]
        )
        time.sleep(HOURS)
    if how == "garbage":
        server.sendall(b"\xff\xfe jump\n")
    if how == "stranger":
        server.sendall(enter.replace(b"k1", b"k0"))
    if how == "endless":
        while True:
            server.sendall(b"x" * 65_536)
    server.sendall(enter)
    if how == "twice":
        socket.create_connection((host, int(port))).sendall(enter)
    if how == "flood":
        while True:
            server.sendall(b'{"do":"look"}\n' * 1000)
    if how == "crash":
        os.kill(os.getpid(), 9)
    if how == "blank":
        while True:
            server.sendall(b" \n" * 1000)
    while server.recv(65_536):
        pass


if __name__ == "__main__":
    main()
