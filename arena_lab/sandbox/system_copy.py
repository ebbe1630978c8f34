"""A copy of the system in memory, which is what programs behind walls see of it.

The kernel keeps names of files that do not exist, and what it has read of a disk: so a
program can leave a note for a later one by looking for names, and it sees how much of
the disk is free. A file system in memory keeps no such names, and nobody writes there.
The copy has the files of Debian's packages that own the programs which commands name,
of those on which these depend, and of the `packages` that are named besides. The
folders that are named as `tools` are copied too, if there is room.
"""
import contextlib
import fcntl
import functools
import os
import pathlib
import re
import shutil
import subprocess
import sys
import tempfile
from typing import Dict, Iterable, Iterator, List, NamedTuple, Sequence, Set, Tuple

from arena_lab.sandbox.isolation import PATH, SETTINGS, TOOLS

# where file systems in memory may be, and how many bytes of them a copy may take
PLACES = ("/dev/shm", os.environ.get("XDG_RUNTIME_DIR", "/dev/shm"), "/tmp")
MAX_BYTES = 1 << 30
PREFIX = "lab-system-"
# what each program may need: its sandbox is begun by Python and tar, and scripts by a
# shell
ALWAYS = (
    "python3",
    "tar",
    "bash",
    "dash",
    "coreutils",
    "sed",
    "grep",
    "libstdc++6",
    "libc6",
)
LISTS = pathlib.Path("/var/lib/dpkg/info")
LEFT_OUT = (
    "/usr/share/doc/",
    "/usr/share/man/",
    "/usr/share/locale/",
    "/usr/share/info/",
    "/usr/share/lintian/",
)
MAX_LINKS = 40
CACHE = "__pycache__"
CHOSEN = "/etc/alternatives/"


class CopyError(Exception):
    """The system cannot be copied; says why."""


class Package(NamedTuple):
    """An installed package: the file that lists its files, and its dependencies, each a
    list of alternatives."""

    file_list: pathlib.Path
    needs: List[List[str]]


@contextlib.contextmanager
def copy_system(
    commands: Iterable[str], packages: Sequence[str], tools: Sequence[str] = ()
) -> Iterator[str]:
    """The folder of a copy for these commands, and these packages and tools besides, as
    long as it is open."""
    remove_left()
    paths, size = files_for(commands, packages, tools)
    inside = all_in(map(os.path.realpath, tools))
    extra_bytes = sum(os.lstat(path).st_size for path in inside if is_plain(path))
    room = size + extra_bytes if size + extra_bytes <= MAX_BYTES else size
    with locked_folder(place_for(room)) as folder:
        os.chmod(folder, 0o755)
        names = "\0".join(path.lstrip("/") for path in paths).encode(
            errors="surrogateescape"
        )
        copy("/", folder, ["--no-recursion", "--null", "-T", "-"], names)
        try:
            if room < size + extra_bytes:
                raise CopyError(f"they take {extra_bytes >> 20} MB")
            for number, tool in enumerate(tools):
                target = f"{folder}/{TOOLS}/{number}"
                os.makedirs(target)
                copy(os.path.realpath(tool), target, ["."])
        except CopyError as fault:
            shutil.rmtree(f"{folder}/{TOOLS}", ignore_errors=True)
            print(
                f"arena-lab: programs see the tools on the disk, where the kernel keeps names for later ones: "
                f"{fault}",
                file=sys.stderr,
            )
        yield folder


def files_for(
    commands: Iterable[str], packages: Sequence[str], tools: Sequence[str] = ()
) -> Tuple[List[str], int]:
    """The files of a copy without its tools, and how many bytes they take."""
    paths = files_of(closure([*ALWAYS, *packages, *owners(commands, tools)]))
    size = sum(os.lstat(path).st_size for path in paths)
    if size > MAX_BYTES:
        raise CopyError(
            f"what the commands need takes {size >> 20} MB, and a copy may take {MAX_BYTES >> 20}"
        )
    return paths, size


def check_copy(commands: Iterable[str], packages: Sequence[str]) -> None:
    """Raises CopyError if no copy can be made for these commands and packages."""
    place_for(files_for(commands, packages)[1])


def copy(source: str, target: str, chosen: Sequence[str], names: bytes = b"") -> None:
    """Copies files from a folder to another, as `tar` chooses them by these words and
    names."""
    archive = subprocess.run(
        ["tar", "-C", source, "-cf", "-", *chosen], input=names, capture_output=True
    )
    unpacking = subprocess.run(
        ["tar", "-C", target, "--no-same-owner", "-xpf", "-"], input=archive.stdout
    )
    if archive.returncode != 0 or unpacking.returncode != 0:
        raise CopyError(
            f"{source} cannot be copied: {archive.stderr.decode(errors='replace').strip()[:200]}"
        )


def place_for(size: int) -> str:
    """A file system in memory that has room for a copy and lets programs start."""
    noexec_folders = []
    for folder in dict.fromkeys(PLACES):
        kind = subprocess.run(
            ["stat", "-f", "-c", "%T", folder], capture_output=True, text=True
        ).stdout
        if kind.strip() != "tmpfs" or shutil.disk_usage(folder).free <= 2 * size:
            continue
        if not os.statvfs(folder).f_flag & os.ST_NOEXEC:
            return folder
        noexec_folders.append(folder)
    if noexec_folders:
        raise CopyError(
            f"no program starts from {' or '.join(noexec_folders)}, which is mounted noexec: "
            f"`mount -o remount,exec {noexec_folders[0]}` as root changes that"
        )
    raise CopyError(
        f"no file system in memory has {2 * size >> 20} MB free: {', '.join(sorted(set(PLACES)))}"
    )


def lock_folder(folder: str, operation: int) -> int:
    """Locks a folder for this process; returns the descriptor that holds the lock.
    Raises OSError if there is no such folder, or if another process holds the lock and
    the operation does not wait."""
    descriptor = os.open(folder, os.O_RDONLY | os.O_DIRECTORY | os.O_NOFOLLOW)
    try:
        fcntl.flock(descriptor, operation)
        # another lab may have removed the folder before the lock was taken
        if not os.path.samestat(os.stat(folder), os.fstat(descriptor)):
            raise FileNotFoundError(folder)
    except OSError:
        os.close(descriptor)
        raise
    return descriptor


@contextlib.contextmanager
def locked_folder(parent: str) -> Iterator[str]:
    """A new folder for a copy, which is locked as long as the copy is in use. The kernel
    drops the lock with the process, whose number says nothing to a lab in another
    namespace that shares the file system."""
    with contextlib.ExitStack() as stack:
        while True:
            folder = tempfile.TemporaryDirectory(prefix=PREFIX, dir=parent)
            try:
                stack.callback(os.close, lock_folder(folder.name, fcntl.LOCK_EX))
                break
            except FileNotFoundError:
                folder.cleanup()
        yield stack.enter_context(folder)


def remove_left() -> None:
    """Removes copies of commands that were killed: nobody holds the lock of these."""
    for path in {
        path for folder in PLACES for path in pathlib.Path(folder).glob(f"{PREFIX}*")
    }:
        with contextlib.suppress(OSError):
            descriptor = lock_folder(str(path), fcntl.LOCK_EX | fcntl.LOCK_NB)
            shutil.rmtree(path, ignore_errors=True)
            os.close(descriptor)


def owners(commands: Iterable[str], tools: Sequence[str] = ()) -> List[str]:
    """The packages that own the programs and other files of the system which commands
    name, but for those of tools."""
    words = {word for command in commands for word in re.findall(r"[\w.+/-]+", command)}
    files = [
        word for word in words if word.startswith("/usr/") and os.path.isfile(word)
    ]
    ways = [
        way_of(path)
        for path in {*files, *(shutil.which(word, path=PATH) for word in words)}
        if path and not path.startswith(tuple(f"{tool}/" for tool in tools))
    ]
    # where the package has put it may be another name for the same folder
    paths = {
        alias
        for route in ways
        for path in route
        for alias in (path, path.removeprefix("/usr"))
    }
    query = (
        subprocess.run(
            ["dpkg-query", "-S", *sorted(paths)], capture_output=True, text=True
        )
        if paths
        else None
    )
    owner_rows = [
        line.partition(": ")
        for line in (query.stdout.splitlines() if query else [])
        if "diversion by" not in line
    ]
    known_paths = {path.removeprefix("/usr") for _, _, path in owner_rows}
    for route in ways:
        if route[-1].removeprefix("/usr") not in known_paths:
            raise CopyError(f"{route[-1]} is of no package of Debian")
    return [
        name.partition(":")[0]
        for owner, _, _ in owner_rows
        for name in owner.split(", ")
    ]


def way_of(path: str) -> List[str]:
    """Returns a program's path and the symbolic links that lead to it."""
    paths = [path]
    while os.path.islink(paths[-1]) and len(paths) < MAX_LINKS:
        paths.append(
            os.path.normpath(
                os.path.join(os.path.dirname(paths[-1]), os.readlink(paths[-1]))
            )
        )
    return paths


@functools.lru_cache(maxsize=1)
def installed_packages() -> Dict[str, Package]:
    """Returns installed packages by their names and by the names that they provide."""
    form = "${db:Status-Abbrev}\t${Package}\t${Architecture}\t${Provides}\t${Pre-Depends}, ${Depends}\n"
    try:
        query = subprocess.run(
            ["dpkg-query", "-W", "-f", form], capture_output=True, text=True, check=True
        )
    except (OSError, subprocess.CalledProcessError):
        raise CopyError("this is no Debian") from None
    packages: Dict[str, Package] = {}
    providers: Dict[str, Package] = {}
    for line in query.stdout.splitlines():
        status, name, machine, provides, needs = line.split("\t")
        if not status.startswith("ii"):
            continue
        lists = [LISTS / f"{name}.list", LISTS / f"{name}:{machine}.list"]
        package = Package(
            next((file_list for file_list in lists if file_list.exists()), lists[0]),
            alternatives(needs),
        )
        packages[name] = package
        providers.update(
            {name: package for names in alternatives(provides) for name in names}
        )
    return {**providers, **packages}


def alternatives(text: str) -> List[List[str]]:
    """Parses a dependency field into lists of alternatives."""
    return [
        [re.split(r"[ (:]", name.strip())[0] for name in part.split("|")]
        for part in text.split(",")
        if part.strip()
    ]


def closure(names: Iterable[str]) -> List[Package]:
    """Returns these packages and all their dependencies."""
    packages_known = installed_packages()
    waiting = list(names)
    packages_needed = {}
    for name in waiting:
        if name not in packages_known:
            raise CopyError(
                f"the package {name} is not installed: `apt-get install {name}`"
            )
    while waiting:
        package = packages_known[waiting.pop()]
        if package.file_list not in packages_needed:
            packages_needed[package.file_list] = package
            waiting += [
                name
                for names in package.needs
                for name in [name for name in names if name in packages_known][:1]
            ]
    return list(packages_needed.values())


def files_of(packages: Iterable[Package]) -> List[str]:
    """Returns the files of these packages visible to programs, folders before their
    contents, and the system's configuration."""
    files: Set[str] = set()
    for package in packages:
        for line in package.file_list.read_text(
            encoding="utf-8", errors="surrogateescape"
        ).splitlines():
            path = os.path.join(
                os.path.realpath(os.path.dirname(line)), os.path.basename(line)
            )
            if path.startswith("/usr/") and not path.startswith(LEFT_OUT):
                files.add(path)
    # what Python has compiled is listed nowhere, and neither is which of several
    # programs has a common name
    files |= {
        entry.path
        for entry in os.scandir("/usr/bin")
        if entry.is_symlink()
        and os.readlink(entry).startswith(CHOSEN)
        and os.path.realpath(entry) in files
    }
    files |= set(
        all_in(
            f"{folder}/{CACHE}"
            for folder in {
                os.path.dirname(file) for file in files if file.endswith(".py")
            }
        )
    )
    files |= set(
        all_in(
            str(path)
            for pattern in SETTINGS
            for path in pathlib.Path("/etc").glob(pattern)
        )
    )
    above = {
        str(folder)
        for path in files
        for folder in list(pathlib.Path(path).parents)[:-1]
    }
    return sorted(
        path for path in files | above if os.path.lexists(path) and is_plain(path)
    )


def all_in(paths: Iterable[str]) -> Iterator[str]:
    """Yields the paths, and everything below them."""
    for path in paths:
        yield path
        for folder, folders, files in os.walk(path):
            yield from (os.path.join(folder, name) for name in [*folders, *files])


def is_plain(path: str) -> bool:
    """Returns whether a path is a file, folder or link. Sockets and pipes are excluded,
    because programs could communicate by them."""
    return os.path.islink(path) or os.path.isfile(path) or os.path.isdir(path)
