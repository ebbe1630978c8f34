"""A fork server for trials (arena_lab/course/trials.py): a process with all modules
loaded, which forks one process per trial within milliseconds. It ends with its worker,
and each trial with it."""
import contextlib
import json
import os
import pathlib
import signal
import socket
import subprocess
import sys
import threading
from typing import Callable, Iterator, Optional

from arena_lab.hall.children import FIRST, temporary_folder, variables
from arena_lab.hall.machine import MachineFaultError
from arena_lab.support.built import TOP
from arena_lab.support.waiting import is_ready

MODULE = "arena_lab.course.trials"
# seconds for the start of the fork server, and for the end of a killed process
PATIENCE = 60.0


class ForkServer:
    """Starts the fork server when it is first needed, and again if the system has
    killed it (for lack of memory, say)."""

    def __init__(self) -> None:
        self._lock = threading.Lock()
        self._channel: Optional[socket.socket] = None
        self._child: Optional["subprocess.Popen[bytes]"] = None

    def begin(self) -> None:
        """Starts it ahead of the first trial, which tells of faults."""
        with self._lock, contextlib.suppress(OSError):
            self._open()

    def fork_trial(self, folder: pathlib.Path, temporary: str) -> int:
        """Starts the trial of a folder, in a process of its own; gives that process as a
        descriptor, which can be read once it has ended."""
        message = json.dumps({"folder": str(folder), "temporary": temporary}).encode()
        with self._lock:
            for _ in range(2):
                channel = self._open()
                with contextlib.suppress(OSError):
                    channel.send(message)
                    descriptors = socket.recv_fds(channel, 1, 1)[1]
                    if descriptors:
                        return descriptors[0]
                self._close()
        raise MachineFaultError("no process can be started in which a program is tried")

    def _open(self) -> socket.socket:
        """The channel to the process, which goes on."""
        if self._child is not None and self._child.poll() is not None:
            self._close()
        if self._channel is None:
            ours, theirs = socket.socketpair(socket.AF_UNIX, socket.SOCK_SEQPACKET)
            ours.settimeout(PATIENCE)
            with theirs:
                # it ends once nobody has our end any more
                self._child = subprocess.Popen(
                    [*FIRST, sys.executable, "-m", MODULE],
                    cwd=TOP,
                    stdin=theirs.fileno(),
                    stdout=subprocess.DEVNULL,
                    env=variables(),
                )
            self._channel = ours
        return self._channel

    def _close(self) -> None:
        if self._channel is not None:
            self._channel.close()
            self._channel = None
        if self._child is not None:
            self._child.kill()
            self._child.wait()
            self._child = None


FORK_SERVER = ForkServer()


@contextlib.contextmanager
def trial_in(folder: pathlib.Path) -> Iterator[Callable[[float], bool]]:
    """Starts the trial of a folder, and kills it when the block ends. Gives a function
    that waits for the trial's end for at most this many seconds, and says whether the
    trial has ended."""
    with temporary_folder() as temporary:
        process = FORK_SERVER.fork_trial(folder, temporary)
        try:
            yield lambda seconds: is_ready(process, seconds)
        finally:
            with contextlib.suppress(ProcessLookupError):
                signal.pidfd_send_signal(process, signal.SIGKILL)
            is_ready(process, PATIENCE)
            os.close(process)
