"""Control groups of Linux, version 2, for programs of strangers: the kernel bounds what
a program takes of memory and of processes with all that it starts, also memory that
belongs to no process.

The lab makes a group for each program, if it may divide the group in which it was
started: it may write there, and no other process is in it. So it is in a scope of
systemd, by `systemd-run --user --scope -p Delegate=yes` before the command, and for
root by the same without `--user`; and for root in the first group of a machine or of a
container.
"""
import contextlib
import itertools
import os
import pathlib
import time
from typing import Iterator, List, Optional

from arena_lab.sandbox import processes, memory_watch

# mount points of cgroups, and the file that names this process's own group
MOUNTS = ("/sys/fs/cgroup", "/sys/fs/cgroup/unified")
OWN_GROUP = pathlib.Path("/proc/self/cgroup")
CONTROLLERS = "cgroup.controllers"
SUBTREE = "cgroup.subtree_control"
PROCESSES = "cgroup.procs"
KIND = "cgroup.type"
NEEDED_CONTROLLERS = {"memory", "pids"}
# the names of groups: of the lab itself, and of programs; behind it stands the lab's
# process
OF_LAB = "arena-lab-"
OF_PROGRAM = "arena-program-"
# processes and threads of a program: its own bound holds before, and its sandbox has
# some too
MAX_PROCESSES = 288
# a shell joins a group, and becomes the program
JOIN = 'echo 0 > "$0" && exec "$@"'
SECONDS_TO_END = 10.0
BETWEEN = 0.005
NUMBERS = itertools.count()


class ControlGroup:
    """The group of a program."""

    def __init__(self, folder: pathlib.Path) -> None:
        self._folder = folder

    def bound(self) -> None:
        """Writes the bounds. Not every system has swap, and older ones end one process
        where all should end."""
        write(self._folder / "memory.max", str(memory_watch.MAX_MEMORY))
        with contextlib.suppress(OSError):
            write(self._folder / "memory.swap.max", "0")
        with contextlib.suppress(OSError):
            write(self._folder / "memory.oom.group", "1")
        write(self._folder / "pids.max", str(MAX_PROCESSES))

    def words(self) -> List[str]:
        """Returns the command prefix that starts a program inside the group."""
        return ["sh", "-c", JOIN, str(self._folder / PROCESSES)]

    def has_met_its_bound(self) -> bool:
        """Returns whether the kernel has ended the program, as its memory is used
        up."""
        try:
            lines = (self._folder / "memory.events").read_text().splitlines()
        except OSError:
            return False
        return any(
            int(count) > 0
            for name, count in map(str.split, lines)
            if name == "oom_kill"
        )

    def end(self) -> None:
        """Kills all processes of the group."""
        with contextlib.suppress(OSError):
            write(self._folder / "cgroup.kill", "1")


@contextlib.contextmanager
def program_group() -> Iterator[str]:
    """Yields the folder of the group of programs, or "" if cgroups are not available.
    The lab's own processes move to a sibling group, because the kernel allows processes
    in leaves only."""
    group = own_group()
    if group is None:
        yield ""
        return
    remove_left(group)
    # the first group of all may have processes and groups
    folder = group / f"{OF_LAB}{os.getpid()}" if (group / KIND).exists() else None
    missing_controllers = NEEDED_CONTROLLERS - set(
        (group / SUBTREE).read_text().split()
    )
    with contextlib.ExitStack() as undone:
        try:
            if folder is not None:
                folder.mkdir()
                undone.callback(remove, folder)
                undone.callback(move, folder, group)
                move(group, folder)
            if missing_controllers:
                undone.callback(switch, group, "-", missing_controllers)
                switch(group, "+", missing_controllers)
            program_folder = str(group)
        except OSError:
            program_folder = ""
        if not program_folder:
            undone.close()
        yield program_folder


@contextlib.contextmanager
def group_in(folder: str) -> Iterator[Optional[ControlGroup]]:
    """Yields a new group below the folder, or None for "". At the end its processes are
    killed and it is removed."""
    if not folder:
        yield None
        return
    folder_path = pathlib.Path(folder) / f"{OF_PROGRAM}{os.getpid()}-{next(NUMBERS)}"
    folder_path.mkdir()
    control_group = ControlGroup(folder_path)
    try:
        control_group.bound()
        yield control_group
    finally:
        control_group.end()
        remove(folder_path)


def own_group() -> Optional[pathlib.Path]:
    """The group of this process, if groups with bounds can be made in it."""
    try:
        path = next(
            line[3:]
            for line in OWN_GROUP.read_text().splitlines()
            if line.startswith("0::")
        )
        mount = next(
            pathlib.Path(mount)
            for mount in MOUNTS
            if (pathlib.Path(mount) / CONTROLLERS).exists()
        )
        group = mount / path.lstrip("/")
        has_all = NEEDED_CONTROLLERS <= set((group / CONTROLLERS).read_text().split())
        may_write = all(
            os.access(path, os.W_OK)
            for path in (group, group / PROCESSES, group / SUBTREE)
        )
        is_alone = not (group / KIND).exists() or set(processes_in(group)) <= set(
            processes.below(os.getpid())
        )
    except (OSError, StopIteration, ValueError):
        return None
    return group if has_all and may_write and is_alone else None


def processes_in(group: pathlib.Path) -> List[int]:
    return [int(word) for word in (group / PROCESSES).read_text().split()]


def move(source: pathlib.Path, target: pathlib.Path) -> None:
    """Moves all processes from one group to another."""
    for process in processes_in(source):
        with contextlib.suppress(ProcessLookupError):
            write(target / PROCESSES, str(process))


def switch(group: pathlib.Path, sign: str, controllers: "set[str]") -> None:
    """Enables (+) or disables (-) controllers for the children of a group."""
    with contextlib.suppress(OSError) if sign == "-" else contextlib.nullcontext():
        write(
            group / SUBTREE, " ".join(f"{sign}{name}" for name in sorted(controllers))
        )


def remove(group: pathlib.Path) -> None:
    """Removes a group. The kernel does so once all processes in it have ended."""
    until = time.monotonic() + SECONDS_TO_END
    while True:
        try:
            group.rmdir()
            return
        except FileNotFoundError:
            return
        except OSError:
            if time.monotonic() > until:
                return
        time.sleep(BETWEEN)


def remove_left(group: pathlib.Path) -> None:
    """Removes groups of commands that were killed."""
    for prefix in (OF_LAB, OF_PROGRAM):
        for leftover in group.glob(f"{prefix}*"):
            process = leftover.name[len(prefix) :].partition("-")[0]
            if not os.path.exists(f"/proc/{process}"):
                ControlGroup(leftover).end()
                remove(leftover)


def write(path: pathlib.Path, text: str) -> None:
    """Writes to a file of a group."""
    path.write_text(text)
