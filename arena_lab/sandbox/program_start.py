"""Starts a program in its sandbox (arena_lab/sandbox/sandboxes.py):

    python3 program_start.py CHANNEL FILES PORT SEED WORD ..

Unpacks the team's files, a tar archive that stands open as FILES, into its folder;
opens the port to which the program will connect, and sends it over the channel, which
is a socket; and becomes the program. In the words {port} stands for the port, of which
0 asks for any that is free. The program finds SEED in ARENA_SEED.
"""
import array
import errno
import os
import resource
import socket
import sys
from typing import List, NoReturn

HOST = "127.0.0.1"
READY = b"ready"
GO = b"go"
# bytes of a file, bytes of memory, bytes of addresses, open files
LIMITS = {
    resource.RLIMIT_CORE: 0,
    resource.RLIMIT_FSIZE: 64 << 20,
    resource.RLIMIT_DATA: 2 << 30,
    resource.RLIMIT_AS: 256 << 30,
    resource.RLIMIT_NOFILE: 256,
}
NO_FIRST_LINE = "it is no program of this machine; a script's first line says what runs it, such as #!/bin/sh"
# bytes of a script's first line that the kernel looks at
LONGEST = 256
# bytes that wait at the port for the lab, so that what a program sends before it ends
# is not lost
AHEAD = 4 << 20


def limit() -> None:
    """Sets the resource limits of the program. Users with a name have other processes,
    so their process limit is not set: COUNTED is empty then, and else this limit."""
    limits = dict(LIMITS)
    process_limit = os.environ.get("COUNTED")
    if process_limit:
        limits[resource.RLIMIT_NPROC] = int(process_limit)
    for kind, limit in limits.items():
        hard = resource.getrlimit(kind)[1]
        least = limit if hard == resource.RLIM_INFINITY else min(limit, hard)
        resource.setrlimit(kind, (least, least))


def unpack(files: int) -> None:
    """Unpacks the team's files."""
    tar = os.posix_spawnp(
        "tar",
        ["tar", "-xf", "-"],
        os.environ,
        file_actions=[(os.POSIX_SPAWN_DUP2, files, 0)],
    )
    _, status = os.waitpid(tar, 0)
    os.close(files)
    if status != 0:
        sys.exit("the team's files cannot be unpacked")


def listen(channel: int, port: int) -> int:
    """Opens the port and sends it over the channel; gives its number, once the lab says
    that the program may begin."""
    with socket.socket() as listener, socket.socket(fileno=channel) as sends:
        listener.setsockopt(socket.SOL_SOCKET, socket.SO_RCVBUF, AHEAD)
        listener.bind((HOST, port))
        listener.listen()
        sends.sendmsg(
            [READY],
            [
                (
                    socket.SOL_SOCKET,
                    socket.SCM_RIGHTS,
                    array.array("i", [listener.fileno()]),
                )
            ],
        )
        port_number: int = listener.getsockname()[1]
        if sends.recv(len(GO)) != GO:
            sys.exit("the lab has ended before the program began")
        return port_number


def hint(name: str) -> str:
    """Returns why a file cannot be executed, as far as its contents show it."""
    try:
        with open(name, "rb") as file:
            first = file.readline(LONGEST)
    except OSError:
        return ""
    if first.startswith(b"#!") and first.rstrip(b"\n").endswith(b"\r"):
        return (
            f"its lines end as on Windows: hand it in after `sed -i 's/\\r$//' {name}`"
        )
    if not os.access(name, os.X_OK):
        return f"it may not be run: hand it in after `chmod +x {name}`"
    return ""


def fail(name: str, why: str) -> NoReturn:
    """Ends without a program, as a shell does."""
    print(f"{name}: {why}", file=sys.stderr, flush=True)
    os._exit(127)


def main(channel: str, files: str, port: str, seed: str, *words: str) -> None:
    limit()
    unpack(int(files))
    port_number = str(listen(int(channel), int(port)))
    command: List[str] = [word.replace("{port}", port_number) for word in words]
    here = os.getcwd()
    environment = {
        "PATH": os.environ["PATH"],
        "HOME": here,
        "TMPDIR": os.environ.get("TMPDIR", here),
        "USER": "agent",
        "LANG": "C.UTF-8",
        "ARENA_SEED": seed,
        "PYTHONHASHSEED": seed,
        "PYTHONDONTWRITEBYTECODE": "1",
    }
    wrong = hint(command[0]) if "/" in command[0] else ""
    if wrong:
        fail(command[0], wrong)
    try:
        os.execvpe(command[0], command, environment)
    except OSError as fault:
        fail(
            command[0],
            NO_FIRST_LINE if fault.errno == errno.ENOEXEC else str(fault.strerror),
        )


if __name__ == "__main__":
    main(*sys.argv[1:])
