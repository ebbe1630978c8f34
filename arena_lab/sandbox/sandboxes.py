"""Sandboxes: where programs of strangers play, each apart from all others.

A program in a sandbox runs in a folder of its own, which has a copy of its files and
nothing else. What else keeps it apart depends on the machine and on who starts the lab:

- With Debian's bubblewrap and python3-seccomp, where the machine lets its users make
  namespaces (as Linux does outside containers): the program sees no network but the
  lab, no processes but its own, and of the disk the system's programs and its folder,
  which is in memory. A filter refuses the calls of the system by which it could meet
  other programs, also those of its own team. If root starts the lab, it is besides a
  user of its own, who has no name.
- Otherwise, if root starts the lab: the program is a user of its own. It can read what
  every user of the machine may read, and programs can talk to each other behind the
  whiteboards' back.
- Otherwise: the program can read and write what this user can.
"""
import contextlib
import enum
import functools
import os
import pathlib
import re
import shutil
import signal
import socket
import subprocess
import sys
import tarfile
import tempfile
from typing import (
    Any,
    Collection,
    Dict,
    Iterator,
    List,
    NamedTuple,
    Optional,
    Sequence,
    Tuple,
)

from arena_lab.play.runners import StartError, StartedProgram
from arena_lab.play.wasm_modules import is_module
from arena_lab.sandbox import (
    calls,
    groups,
    isolation,
    network_ports,
    processes,
    system_copy,
    users,
    memory_watch,
)
from arena_lab.sandbox.groups import ControlGroup
from arena_lab.sandbox.isolation import HOME, PATH, PORT, SPACES, CellError
from arena_lab.sandbox.program_start import GO, READY
from arena_lab.sandbox.memory_watch import TOO_MUCH, MemoryWatch, memory_of, space_of
from arena_lab.support.built import player
from arena_lab.support.missing import DEBIANS_PYTHON
from arena_lab.support.waiting import is_ready

STARTER = pathlib.Path(__file__).resolve().parent / "program_start.py"
# how long a machine with much other work may take to begin a sandbox
SECONDS_TO_BEGIN = 60
PACKAGES = "apt-get install bubblewrap python3-seccomp"
# an archive of no files
NOTHING = bytes(tarfile.RECORDSIZE)
# processes of a program at a time, with their threads where the system counts them; and
# those of its sandbox itself
MAX_PROCESSES = 256
SANDBOX_PROCESSES = 4
# what is so where the system cannot be copied into memory
SEES_DISK = (
    "programs see the system's own disk, where the kernel keeps names for later ones"
)
TOO_MANY = "has started more than {} processes"
# pattern of last words at a resource limit -> advice
THREADS = "a program may have {processes} processes and threads"
HINTS = {
    "can't start new thread": THREADS,
    "unable to create native thread": THREADS,
    "failed to create new OS thread": THREADS,
    "Resource temporarily unavailable": THREADS,
    "annot assign requested address": "a program may have two connections to a port at a time",
    "Too many open files": "a program may have 256 open files",
    "libjli.so": f"programs in Java need `proc = true` in {calls.SETTINGS}",
    "No space left on device": "a program's folder, /tmp and /dev/shm take 64 MB each",
}

# pattern of last words after a refused system call, and the advice
NO_CALL = re.compile(
    "function not implemented|operation not permitted|bad system call|ENOSYS|EPERM",
    re.IGNORECASE,
)
A_CALL = (
    "calls of the system are refused to it that {language} does not need: examples/README.md says how to see "
    f"which this was, and `calls` in {calls.SETTINGS} allows more"
)


class Isolation(enum.Enum):
    """How a program is isolated, besides having its own folder."""

    ALL = "each program has a network, processes and a view of the disk of its own"
    USER = (
        "each program has a user of its own, but can read what every user may read, so close your folder "
        "to others by `chmod go= FOLDER`; and a team's programs can talk to each other unseen"
    )
    NONE = (
        "teams' programs run as you: they can read and change your files, and what they write to /tmp and "
        "processes that leave their group stay when a match has ended"
    )


class SandboxOptions(NamedTuple):
    """Options shared by sandboxes: the `isolation`; folders visible besides the
    system's (`tools`), and /proc if `has_proc`; `root`, the copy of the system, or "";
    system calls allowed besides those of the language (`calls`); `groups`, the folder
    of control groups, or ""; how many `processes` a program may have at a time."""

    isolation: Isolation
    tools: Tuple[str, ...] = ()
    has_proc: bool = False
    root: str = ""
    calls: Tuple[str, ...] = ()
    groups: str = ""
    processes: int = MAX_PROCESSES


class ProgramFiles(NamedTuple):
    """A program's files as an archive, the facts of the network in its command, and its
    language."""

    files: bytes
    facts: Dict[str, str] = {}
    language: str = calls.ANY


class Sandbox:
    """A place in which one program runs, apart from others, with its files and perhaps
    a user of its own."""

    def __init__(
        self,
        options: SandboxOptions,
        files: ProgramFiles,
        user: Optional[int],
        path: Optional[pathlib.Path],
        group: Optional[ControlGroup] = None,
    ) -> None:
        self.options = options
        self._group = group
        self.user = user
        self.place = path
        self.facts = files.facts
        self._files = files.files
        self._language = files.language
        self._child: Optional["subprocess.Popen[bytes]"] = None
        # the first process behind walls, as a file
        self._first: Optional[int] = None
        self._fault = ""

    def start(self, words: Sequence[str], seed: int, errors: Any) -> StartedProgram:
        """Starts a program."""
        ours, theirs = socket.socketpair()
        with theirs, contextlib.ExitStack() as stack:
            files = stack.enter_context(in_memory(self._files))
            descriptors = [theirs.fileno(), files]
            command = self._before()
            port = 0
            if self.place is None:
                port = PORT
                descriptors.append(
                    stack.enter_context(
                        in_memory(
                            isolation.system_filter(self._language, self.options.calls)
                        )
                    )
                )
                command += isolation.words(
                    self.options.tools, self.options.has_proc, self.options.root
                )
                command += ["--seccomp", str(descriptors[-1])]
                command += ["--setenv", "COUNTED", str(self.options.processes)]
            command += [
                python(),
                "-I",
                "-S",
                "-c",
                STARTER.read_text(encoding="utf-8"),
                str(theirs.fileno()),
                str(files),
                str(port),
                str(seed),
                *words,
            ]
            path = PATH if self.user is not None else os.environ.get("PATH", PATH)
            child = self._child = subprocess.Popen(
                command,
                pass_fds=descriptors,
                stdin=subprocess.DEVNULL,
                stdout=subprocess.DEVNULL,
                stderr=errors,
                cwd=self.place,
                env={
                    "PATH": path,
                    "COUNTED": "" if self.user is None else str(self.options.processes),
                },
                start_new_session=True,
            )
        return child, functools.partial(self._listener_of, child, ours, errors)

    def _before(self) -> List[str]:
        """The words that make a program the first that is ended if memory is short, and
        another user. Where no walls end it with the process that plays it, the system
        does."""
        first = [
            *(self._group.words() if self._group else []),
            "choom",
            "-n",
            "1000",
            "--",
        ]
        ends = [] if self.place is None else ["--pdeathsig", "KILL"]
        user = (
            []
            if self.user is None
            else [
                f"--reuid={self.user}",
                f"--regid={self.user}",
                "--clear-groups",
                "--no-new-privs",
            ]
        )
        return [*first, *(["setpriv", *ends, *user, "--"] if ends or user else [])]

    def _listener_of(
        self, child: "subprocess.Popen[bytes]", channel: socket.socket, errors: Any
    ) -> socket.socket:
        """Takes the listener, and so waits until the program begins."""
        try:
            with channel:
                channel.settimeout(SECONDS_TO_BEGIN)
                _, descriptors, _, _ = socket.recv_fds(channel, len(READY), 1)
                listener = socket.socket(fileno=descriptors[0])
                if self.place is None:
                    inside = processes.below(child.pid)[1:2]
                    self._first = open_process(inside)
                    network_ports.bound(inside[0])
                channel.sendall(GO)
                return listener
        except (OSError, IndexError) as fault:
            self.kill(child)
            errors.seek(0)
            message = errors.read().decode(errors="replace").strip()
            why = f"a sandbox for a program cannot be made: {message or fault}"
        if self._files == NOTHING:
            raise CellError(why)
        # if the sandbox works, the program's files or words are to blame
        try_out(self.options)
        raise StartError(why)

    def kill(self, child: "subprocess.Popen[bytes]") -> None:
        """Kills the program and its descendants."""
        if self._first is not None:
            # all processes of the sandbox end with its first one
            with contextlib.suppress(ProcessLookupError):
                signal.pidfd_send_signal(self._first, signal.SIGKILL)
            is_ready(self._first, SECONDS_TO_BEGIN)
            os.close(self._first)
            self._first = None
        elif self.place is not None and self.user is not None:
            users.end_all_of(self.user)
        with contextlib.suppress(ProcessLookupError):
            os.killpg(child.pid, signal.SIGKILL)
        child.wait()

    def hurry(self, child: "subprocess.Popen[bytes]") -> None:
        """Tells the program to end, and all that it has started behind walls."""
        with contextlib.suppress(ProcessLookupError):
            if self._first is not None:
                signal.pidfd_send_signal(self._first, signal.SIGKILL)
            os.killpg(child.pid, signal.SIGKILL)

    def stable_text(self, text: str) -> str:
        """Replaces the name of the program's folder, which differs in each run."""
        return text.replace(f"{self.place or HOME}/", "")

    def hint(self, words: str) -> str:
        """Returns advice suggested by a program's last words."""
        hint = next((hint for pattern, hint in HINTS.items() if pattern in words), "")
        hint = hint.format(processes=self.options.processes)
        if not hint and self.place is None and NO_CALL.search(words):
            hint = A_CALL.format(
                language="a program" if self._language == calls.ANY else self._language
            )
        return f" ({hint})" if hint else ""

    def fault(self) -> str:
        """Why the program was ended, if it has taken too much."""
        if self._group and self._group.has_met_its_bound():
            self._fault = TOO_MUCH
        return self._fault

    def excess(self) -> str:
        """Returns of what the program takes too much, or "". In a control group the
        kernel bounds its memory."""
        if self._group and self._group.has_met_its_bound():
            return TOO_MUCH
        if self._child is None or self._child.returncode is not None:
            return ""
        running = processes.below(self._child.pid)
        if len(running) > self.options.processes + SANDBOX_PROCESSES:
            return TOO_MANY.format(self.options.processes)
        has_all = (
            not self._group and self.memory_used(running) > memory_watch.MAX_MEMORY
        )
        return TOO_MUCH if has_all else ""

    def memory_used(self, running: Sequence[int]) -> int:
        """The bytes of memory that the program takes, which has these processes."""
        inside = running[1:2] if self.place is None else []
        spaces = [
            space_of(f"/proc/{first}/root{path}") for first in inside for path in SPACES
        ]
        return memory_of(running) + sum(spaces)

    def end_for(self, fault: str) -> None:
        """Ends the program, as it has taken too much."""
        self._fault = fault
        if self._child is None:
            return
        for process in (
            processes.below(self._child.pid)[1:]
            if self.place is None
            else [self._child.pid]
        ):
            with contextlib.suppress(ProcessLookupError):
                os.kill(process, signal.SIGKILL)


def open_process(running: Sequence[int]) -> Optional[int]:
    """Opens a pidfd of the first process; returns None if it has ended."""
    with contextlib.suppress(ProcessLookupError):
        return os.pidfd_open(running[0]) if running else None
    return None


@contextlib.contextmanager
def sandboxes_for(
    options: SandboxOptions, files: ProgramFiles, count: int
) -> Iterator[List[Sandbox]]:
    """Sandboxes of programs, each with a copy of the files of an archive."""
    with contextlib.ExitStack() as stack:
        sandboxes = []
        for _ in range(count):
            has_user = os.geteuid() == 0 and options.isolation is not Isolation.NONE
            user = stack.enter_context(users.claim_user()) if has_user else None
            path = (
                None
                if options.isolation is Isolation.ALL
                else stack.enter_context(folder_for(user))
            )
            sandboxes.append(
                Sandbox(
                    options,
                    files,
                    user,
                    path,
                    stack.enter_context(groups.group_in(options.groups)),
                )
            )
        stack.enter_context(
            MemoryWatch(
                [sandbox.excess for sandbox in sandboxes],
                [sandbox.end_for for sandbox in sandboxes],
            )
        )
        yield sandboxes


@contextlib.contextmanager
def furnish(
    options: SandboxOptions, commands: Collection[str], packages: Sequence[str]
) -> Iterator[SandboxOptions]:
    """Yields the options extended by control groups and by a copy of the system with
    these commands and packages. If a copy is impossible, a line says why."""
    if any(map(is_module, commands)):
        # it may be compiled first, and nobody is timed yet
        player()
    with contextlib.ExitStack() as stack:
        if options.isolation is Isolation.ALL and options.calls:
            # reports an unknown call name before the first match
            isolation.system_filter(calls.ANY, options.calls)
        try:
            folder = (
                stack.enter_context(
                    system_copy.copy_system(commands, packages, options.tools)
                )
                if options.isolation is Isolation.ALL
                else ""
            )
        except system_copy.CopyError as fault:
            if packages:
                raise CellError(f"packages: {fault}") from None
            print(f"arena-lab: {SEES_DISK}: {fault}", file=sys.stderr)
            folder = ""
        yield options._replace(
            root=folder, groups=stack.enter_context(groups.program_group())
        )


def try_out(options: SandboxOptions) -> None:
    """Starts a program that does nothing; if even that cannot be started, NoCell says
    why."""
    with sandboxes_for(
        options, ProgramFiles(NOTHING), 1
    ) as sandboxes, tempfile.TemporaryFile() as errors:
        child, listener_of = sandboxes[0].start(["true"], 0, errors)
        listener_of().close()
        if child.wait() != 0:
            raise CellError(
                f"a program that does nothing has ended with status {child.returncode}"
            )


@contextlib.contextmanager
def folder_for(user: Optional[int]) -> Iterator[pathlib.Path]:
    """Yields an empty folder owned by this user, and removes all of the user's files
    and processes before and after."""
    if user is not None:
        # remains of a killed command
        users.end_and_remove(user)
    above = pathlib.Path(tempfile.mkdtemp(prefix="lab-sandbox-"))
    try:
        # 0o711, because with write permission on the parent a program could rename its
        # folder
        above.chmod(0o711)
        (above / "home").mkdir(mode=0o700)
        if user is not None:
            os.chown(above / "home", user, user)
        yield above / "home"
    finally:
        if user is not None:
            users.end_and_remove(user)
        remove(above)


def remove(folder: pathlib.Path) -> None:
    """Removes a folder, however deep a program has made folders in it."""
    subprocess.run(["rm", "-rf", "--", str(folder)], stderr=subprocess.DEVNULL)


@contextlib.contextmanager
def in_memory(content: bytes) -> Iterator[int]:
    """A file in memory, at its beginning."""
    with open(os.memfd_create("lab"), "wb") as file:
        file.write(content)
        file.flush()
        file.seek(0)
        yield file.fileno()


def python() -> str:
    """The Python that starts programs: one that every user has, if there is one."""
    return DEBIANS_PYTHON if os.path.exists(DEBIANS_PYTHON) else sys.executable


@functools.lru_cache(maxsize=1)
def weakness() -> str:
    """Returns why sandboxes are not available here, or ""."""
    if (
        shutil.which("bwrap") is None
        or not os.path.exists(DEBIANS_PYTHON)
        or subprocess.run(
            [DEBIANS_PYTHON, "-c", "import seccomp"], stderr=subprocess.DEVNULL
        ).returncode
        != 0
    ):
        return f"there are no walls between programs: `{PACKAGES}` installs what makes them"
    try:
        try_out(SandboxOptions(Isolation.ALL))
        return ""
    except CellError as fault:
        return (
            f"this machine makes no walls between programs, as in a container: {fault}"
        )


@functools.lru_cache(maxsize=1)
def strongest() -> Isolation:
    """Returns the strongest isolation that is available here."""
    if not weakness():
        return Isolation.ALL
    return Isolation.USER if os.geteuid() == 0 else Isolation.NONE
