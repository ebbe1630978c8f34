"""The walls that bubblewrap puts up around a program: what it sees of the disk and of
/proc, where it can write, and which calls of the system it cannot make."""
import functools
import os
import pathlib
import subprocess
from typing import List, Optional, Sequence, Tuple

from arena_lab.sandbox import calls
from arena_lab.support.faults import ArenaError
from arena_lab.support.missing import DEBIANS_PYTHON

FILTER = pathlib.Path(__file__).resolve().parent / "filter.py"
# inside the sandbox: the program's folder, the port to connect to, and the user
HOME = "/agent"
PORT = 4000
USER = "1000"
PATH = "/usr/local/bin:/usr/bin:/bin"
# what a program sees of the disk, to read
TOP = ("bin", "lib", "lib32", "lib64", "libx32")
SEEN = (
    "/usr/bin",
    "/usr/include",
    "/usr/lib",
    "/usr/lib32",
    "/usr/lib64",
    "/usr/libexec",
    "/usr/libx32",
    "/usr/local",
    "/usr/share",
)
SETTINGS = (
    "alternatives",
    "fonts",
    "hosts",
    "java*",
    "ld.so.*",
    "localtime",
    "mime.types",
    "nsswitch.conf",
    "os-release",
    "protocols",
    "python3*",
    "services",
    "ssl/certs",
    "ssl/openssl.cnf",
)
# what it sees of /proc besides its processes: the rest tells how busy the machine is
PROCESSES = {
    "self",
    "thread-self",
    "mounts",
    "net",
    "cpuinfo",
    "filesystems",
    "version",
}
# in a copy of the system, where the folders stand that are named as tools, by their
# numbers
TOOLS = "tools"
# where it can write, in memory, and how many bytes each of these takes
SPACES = (HOME, "/tmp", "/dev/shm")
SPACE = 64 << 20


class CellError(ArenaError):
    """A program cannot be kept apart; says what to change."""


def words(tools: Sequence[str], has_proc: bool, root: str = "") -> List[str]:
    """Returns the bubblewrap command up to the sandboxed command. `tools` are visible
    besides the system folders, /proc if requested, and the copy of the system at `root`
    instead of the system."""
    command = [
        "bwrap",
        "--unshare-all",
        "--unshare-user",
        "--disable-userns",
        "--uid",
        USER,
        "--gid",
        USER,
        "--hostname",
        "sandbox",
        "--die-with-parent",
        "--new-session",
        "--clearenv",
        "--setenv",
        "PATH",
        PATH,
        "--setenv",
        "TMPDIR",
        "/tmp",
    ]
    command += [
        *disk_words(root),
        *(proc_words() if has_proc else ["--dir", "/proc"]),
        "--dev",
        "/dev",
    ]
    # terminals are numbered for the whole machine
    command += ["--tmpfs", "/dev/pts", "--remount-ro", "/dev/pts"]
    for path in SPACES:
        command += ["--size", str(SPACE), "--tmpfs", path]
    for number, path in enumerate(tools):
        copy = f"{root}/{TOOLS}/{number}"
        command += ["--ro-bind", copy if root and os.path.isdir(copy) else path, path]
    for path in meeting_places((*(() if root else SEEN), *tools)):
        command += ["--ro-bind", os.devnull, path]
    return [*command, "--remount-ro", "/dev", "--remount-ro", "/", "--chdir", HOME]


@functools.lru_cache(maxsize=8)
def system_filter(language: str, extra: Tuple[str, ...]) -> bytes:
    """The filter of system calls for programs in a language, which allows these
    besides, as bubblewrap takes it."""
    result = subprocess.run(
        [DEBIANS_PYTHON, str(FILTER), str(calls.TABLE), language, *extra],
        capture_output=True,
    )
    if result.returncode != 0:
        message = result.stderr.decode(errors="replace").strip().rpartition("\n")[2]
        raise CellError(f"the filter of system calls cannot be made: {message}")
    return result.stdout


def disk_words(root: str) -> List[str]:
    """Returns the options that make the system's disk, or a copy of it, visible."""
    options = []
    for name in TOP:
        if os.path.islink(f"/{name}"):
            options += ["--symlink", os.readlink(f"/{name}"), f"/{name}"]
        elif os.path.isdir(f"/{name}"):
            options += ["--ro-bind", f"/{name}", f"/{name}"]
    if root:
        return [
            *options,
            "--ro-bind",
            f"{root}/usr",
            "/usr",
            "--ro-bind",
            f"{root}/etc",
            "/etc",
        ]
    settings = (
        str(path)
        for pattern in SETTINGS
        for path in sorted(pathlib.Path("/etc").glob(pattern))
    )
    for path in (*SEEN, *settings):
        options += ["--ro-bind-try", path, path]
    return options


def proc_words() -> List[str]:
    """Returns the options that mount /proc and hide its entries other than
    processes."""
    options = ["--proc", "/proc"]
    for name in sorted(os.listdir("/proc")):
        if not name.isdigit() and name not in PROCESSES:
            path = f"/proc/{name}"
            options += (
                ["--tmpfs", path, "--remount-ro", path]
                if os.path.isdir(path)
                else ["--ro-bind", os.devnull, path]
            )
    return options


@functools.lru_cache(maxsize=4)
def meeting_places(folders: Sequence[str]) -> List[str]:
    """The pipes and sockets in these folders, by which programs that only read could
    talk."""
    result = subprocess.run(
        [
            "find",
            *filter(os.path.isdir, folders),
            "(",
            "-type",
            "p",
            "-o",
            "-type",
            "s",
            ")",
            "-print0",
        ],
        capture_output=True,
    )
    return [os.fsdecode(path) for path in result.stdout.split(b"\0") if path]


def seen_at(path: pathlib.Path, tools: Sequence[str]) -> Optional[str]:
    """Returns the visible folder that contains a path, or None if sandboxed programs
    cannot see the path."""
    real = path.resolve()
    for visible_folder in (*map("/{}".format, TOP), *SEEN, *tools):
        if real.is_relative_to(pathlib.Path(visible_folder).resolve()):
            return visible_folder
    return None
