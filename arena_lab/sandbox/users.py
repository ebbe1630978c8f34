"""Users without a name, for programs of strangers: each is claimed by a lock, so that
no two programs on a machine are the same user, whichever commands start them."""
import contextlib
import fcntl
import functools
import os
import pathlib
import pwd
import random
import signal
import subprocess
import time
from typing import Iterator, List

from arena_lab.sandbox import processes
from arena_lab.support.faults import ArenaError

# numbers of users that no system gives out for long
USERS = range(61_184, 65_520)
# where root keeps a lock for each user; others cannot write there
LOCKS = pathlib.Path("/run/arena-lab")
# where users may leave files outside their programs' folders
SHARED_FOLDERS = ("/tmp", "/var/tmp", "/dev/shm")
SECONDS_TO_END = 10
# users that are tried, one of which is free unless nearly all are taken
TRIES = 1000


class UserError(ArenaError):
    """No user can be claimed, or its processes do not end."""


@functools.lru_cache(maxsize=1)
def unnamed_users() -> List[int]:
    """Numbers of users who have no name on this machine."""
    named_users = {entry.pw_uid for entry in pwd.getpwall()}
    return [user for user in USERS if user not in named_users]


@contextlib.contextmanager
def claim_user() -> Iterator[int]:
    """A user that nobody else has, whose number tells nothing."""
    LOCKS.mkdir(mode=0o700, exist_ok=True)
    for _ in range(TRIES):
        user = random.SystemRandom().choice(unnamed_users())
        with open(LOCKS / str(user), "a") as lock:
            try:
                fcntl.flock(lock, fcntl.LOCK_EX | fcntl.LOCK_NB)
            except OSError:
                continue
            yield user
            return
    raise UserError(
        f"of {len(unnamed_users())} users for programs {TRIES} that were tried are taken"
    )


def end_all_of(user: int) -> None:
    """Ends all processes of a user."""
    until = time.monotonic() + SECONDS_TO_END
    while processes := processes_of(user):
        if time.monotonic() > until:
            raise UserError(f"processes of user {user} do not end: {processes[:5]}")
        # as that user, so that one call reaches all its processes, including new ones
        subprocess.run(
            [
                "setpriv",
                f"--reuid={user}",
                f"--regid={user}",
                "--clear-groups",
                "kill",
                "-KILL",
                "-1",
            ],
            stderr=subprocess.DEVNULL,
        )
        for process in processes:
            with contextlib.suppress(ProcessLookupError):
                os.kill(process, signal.SIGKILL)
        time.sleep(0.005)


def end_and_remove(user: int) -> None:
    """Ends all processes of a user, and removes what it has left in the folders where
    all may write."""
    end_all_of(user)
    subprocess.run(
        ["find", *SHARED_FOLDERS, "-xdev", "-user", str(user), "-delete"],
        stderr=subprocess.DEVNULL,
    )


def processes_of(user: int) -> List[int]:
    """The processes of a user that still run."""
    numbers = []
    for process in processes.process_numbers():
        with contextlib.suppress(OSError):
            # a process can choose its name, which stands in the first line, and whose
            # its files are
            lines = (
                (processes.PROC / str(process) / "status").read_bytes().split(b"\n")[1:]
            )
            users = [
                word
                for line in lines
                if line.startswith(b"Uid:")
                for word in line.split()[1:]
            ]
            has_ended = any(line.startswith(b"State:\tZ") for line in lines)
            if str(user).encode() in users and not has_ended:
                numbers.append(process)
    return numbers
