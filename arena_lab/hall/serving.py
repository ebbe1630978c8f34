"""Serves a hall: a web server and workers, each of which is started again when it ends.
All of them end with this process, and servers of matches with their worker. What they
say of faults goes where this process says it."""
import contextlib
import fcntl
import http.client
import os
import signal
import socket
import subprocess
import sys
import threading
import time
from typing import Callable, Dict, Iterator, List, NamedTuple, Optional

from arena_lab.hall.attempts.servers import bound
from arena_lab.hall.hall_files import HallError
from arena_lab.hall.place import VARIABLE, HallFolder, log_line
from arena_lab.support.built import TOP

LOCK = "lock"
# seconds between two looks, before a process that has ended is started again, and that
# all may take to end
LOOK = 0.3
RETRY_SECONDS = 1.0
PATIENCE = 8.0
# seconds in which the pages answer once, also on a busy machine
ANSWER_SECONDS = 60.0
Children = Dict[str, "subprocess.Popen[bytes]"]


class Options(NamedTuple):
    """Options of a hall: the number of workers, the socket of its pages (None for a
    machine with workers only), and what is called once a request is answered there."""

    workers: int
    listener: Optional[socket.socket] = None
    announce: Callable[[], object] = lambda: None


@contextlib.contextmanager
def alone(hall_folder: HallFolder) -> Iterator[None]:
    """Refuses a folder whose hall is served already."""
    with (hall_folder.folder / LOCK).open("a") as lock:
        try:
            fcntl.flock(lock, fcntl.LOCK_EX | fcntl.LOCK_NB)
        except BlockingIOError:
            raise HallError(
                f"{hall_folder.folder}: this hall is served already"
            ) from None
        yield


def commands(options: Options) -> Dict[str, List[object]]:
    """The commands of the hall's processes, by their names."""
    processes: Dict[str, List[object]] = {
        f"worker {number}": ["worker", number] for number in range(options.workers)
    }
    return (
        processes
        if options.listener is None
        else {**processes, "web": web_words(options.listener)}
    )


def web_words(listener: socket.socket) -> List[object]:
    return ["web", listener.getsockname()[0], listener.fileno()]


def announce_answer(listener: socket.socket, announce: Callable[[], object]) -> None:
    """Asks the pages until they answer, and announces it."""
    host, port = listener.getsockname()[:2]
    host = {"0.0.0.0": "127.0.0.1", "::": "::1"}.get(host, host)
    while True:
        with contextlib.suppress(OSError, http.client.HTTPException):
            connection = http.client.HTTPConnection(host, port, timeout=ANSWER_SECONDS)
            with contextlib.closing(connection):
                # the log has each 503 of /health, which waits for a first worker
                connection.request("GET", "/favicon.ico")
                connection.getresponse().read()
            announce()
            return
        time.sleep(LOOK)


def start_process(
    hall_folder: HallFolder, words: List[object], listener: Optional[socket.socket]
) -> "subprocess.Popen[bytes]":
    # strangers choose the keys of forms: sets and dictionaries have an order of their
    # own in each process
    variables = {
        **os.environ,
        VARIABLE: str(hall_folder.folder),
        "PYTHONPATH": str(TOP),
        "PYTHONHASHSEED": "random",
    }
    command = bound(
        [sys.executable, "-m", "arena_lab.hall.entry", hall_folder.folder, *words]
    )
    return subprocess.Popen(
        command,
        stdin=subprocess.DEVNULL,
        env=variables,
        cwd=hall_folder.folder,
        pass_fds=[listener.fileno()] if listener and words[0] == "web" else [],
    )


def end(children: Children) -> None:
    """Ends all processes."""
    for child in children.values():
        child.terminate()
    limit = time.monotonic() + PATIENCE
    for child in children.values():
        with contextlib.suppress(subprocess.TimeoutExpired):
            child.wait(max(0.1, limit - time.monotonic()))
        child.kill()
        child.wait()


def serve(
    hall_folder: HallFolder, options: Options, seconds: Optional[float] = None
) -> None:
    """Serves a hall until it is ended, or for this number of seconds."""
    limit = float("inf") if seconds is None else time.monotonic() + seconds
    children: Children = {}
    begin_times: Dict[str, float] = {}
    if options.listener is not None:
        words = (options.listener, options.announce)
        threading.Thread(target=announce_answer, args=words, daemon=True).start()
    try:
        while time.monotonic() < limit:
            for name, command in commands(options).items():
                child = children.get(name)
                if (
                    child is not None
                    and child.poll() is None
                    or time.monotonic() - begin_times.get(name, -RETRY_SECONDS)
                    < RETRY_SECONDS
                ):
                    continue
                if child is not None:
                    log_line(
                        f"{name} has ended with status {child.returncode} and is started again"
                    )
                children[name] = start_process(hall_folder, command, options.listener)
                begin_times[name] = time.monotonic()
            time.sleep(LOOK)
    finally:
        signal.signal(signal.SIGTERM, signal.SIG_IGN)
        end(children)
