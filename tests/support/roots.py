"""Bare roots of Debian, in which tests run as on a machine that has nothing."""
import contextlib
import pathlib
import shutil
import subprocess
import tempfile
from typing import Dict, Iterator, List, Sequence

from arena_lab.sandbox.users import LOCKS

# what a root shares with the machine; users for programs are claimed for both, since
# each sees the other's processes
MOUNTS = ("proc", "dev", "sys", str(LOCKS.relative_to("/")))
# makes a folder the root of its own mount namespace, as that of a machine is
PIVOT = 'mount --rbind "$0" "$0" && cd "$0" && pivot_root . mnt && umount -l /mnt && exec "$@"'


@contextlib.contextmanager
def temporary() -> Iterator[pathlib.Path]:
    """Yields a folder for roots. It is not removed while something is mounted in it,
    because that would delete the mounted files."""
    folder = pathlib.Path(tempfile.mkdtemp(prefix="roots-"))
    try:
        yield folder
    finally:
        mounts = [
            line.split()[1]
            for line in pathlib.Path("/proc/mounts").read_text().splitlines()
        ]
        remaining = [mount for mount in mounts if mount.startswith(f"{folder}/")]
        if remaining:
            print(
                f"{folder} is left: {', '.join(remaining)} is still mounted", flush=True
            )
        else:
            shutil.rmtree(folder)


def make(root: pathlib.Path, packages: Sequence[str] = ()) -> None:
    """Makes a root by `debootstrap`, with these packages besides the fewest, if none is
    there."""
    if not (root / "etc" / "debian_version").exists():
        extra = [f"--include={','.join(packages)}"] if packages else []
        subprocess.run(
            ["debootstrap", "--variant=minbase", *extra, "bookworm", str(root)],
            check=True,
            stdout=subprocess.DEVNULL,
        )


@contextlib.contextmanager
def mount_root(
    root: pathlib.Path, bound: Dict[pathlib.Path, str] = {}
) -> Iterator[None]:
    """Mounts what a root shares with the machine, and further folders at these paths,
    read-only."""
    places: List[pathlib.Path] = []
    LOCKS.mkdir(mode=0o700, exist_ok=True)
    try:
        for source, name in {
            **{pathlib.Path("/") / name: name for name in MOUNTS},
            **bound,
        }.items():
            folder = root / name
            folder.mkdir(parents=True, exist_ok=True)
            subprocess.run(["mount", "--rbind", str(source), str(folder)], check=True)
            places.append(folder)
            subprocess.run(["mount", "--make-rslave", str(folder)], check=True)
            if name in bound.values():
                subprocess.run(
                    ["mount", "-o", "remount,ro,bind", str(folder)], check=True
                )
        yield
    finally:
        for folder in reversed(places):
            subprocess.run(["umount", "-l", str(folder)])


def inside(root: pathlib.Path, folder: str, is_machine: bool = True) -> List[str]:
    """The words before a command that is run in a folder of a root, as a new machine
    would run it, or else as many a container does, in which the kernel makes no
    namespaces for users."""
    enter = (
        ["unshare", "--mount", "--propagation", "private", "sh", "-c", PIVOT]
        if is_machine
        else ["chroot"]
    )
    return [
        *enter,
        str(root),
        "env",
        "-i",
        "-C",
        folder,
        "DEBIAN_FRONTEND=noninteractive",
        "LC_ALL=C.UTF-8",
        "HOME=/root",
        "PATH=/usr/local/sbin:/usr/local/bin:/usr/sbin:/usr/bin:/sbin:/bin",
    ]
