"""Builds a wheel that contains the lab and the program. Equal files give equal
bytes."""
import base64
import hashlib
import io
import pathlib
import time
import tomllib
import zipfile
from typing import Dict, List, NamedTuple, Tuple

RUNNABLE = 0o755
READABLE = 0o644
NAME = "arena_lab"
# folder of programs and their records in the package, and data folders beside the lab
PROGRAM = "arena_lab/program/"
DATA_FOLDERS = ("examples/", "experiments/", "docs/")


class File(NamedTuple):
    """A file: its text and its mode."""

    text: bytes
    mode: int


Files = Dict[str, File]


def name_of(version: str, glibc: str) -> str:
    """The wheel's name, by which pip knows where it runs."""
    return f"{NAME}-{version}-py3-none-{tag_of(glibc)}.whl"


def tag_of(glibc: str) -> str:
    """The platforms on which the program runs."""
    return (
        f"manylinux_{glibc.replace('.', '_')}_x86_64"
        if glibc != "any"
        else "linux_x86_64"
    )


def files_of(files: Files, extra: Files) -> Files:
    """The files of the package: the lab, the programs with the texts that say what was
    proved, examples and documents."""
    package_files = {
        path: file for path, file in files.items() if path.startswith("arena_lab/")
    }
    package_files.update(
        {
            f"arena_lab/{path}": file
            for path, file in files.items()
            if path.startswith(DATA_FOLDERS)
        }
    )
    for path in ("bin/arena", "bin/bhs_player", "BUILD", "PROVED.txt", "UNPROVED.txt"):
        if path in files:
            package_files[PROGRAM + path.rpartition("/")[2]] = files[path]
    return {**package_files, **extra}


def metadata(project: bytes, version: str, readme: str) -> str:
    """What pip is told of the package, out of pyproject.toml."""
    table = tomllib.loads(project.decode())["project"]
    lines = [
        "Metadata-Version: 2.1",
        f"Name: {table['name']}",
        f"Version: {version}",
        f"Summary: {table['description']}",
        f"Requires-Python: {table['requires-python']}",
        *(f"Requires-Dist: {requirement}" for requirement in table["dependencies"]),
    ]
    for extra, needs in table["optional-dependencies"].items():
        lines += [
            f"Provides-Extra: {extra}",
            *(f'Requires-Dist: {need}; extra == "{extra}"' for need in needs),
        ]
    return "\n".join([*lines, "Description-Content-Type: text/markdown", "", readme])


ENTRY_POINTS = "[console_scripts]\narena = arena_lab.start:arena\narena-lab = arena_lab.start:lab\n"


def pack(files: Files, project: bytes, version: str, glibc: str, seconds: int) -> bytes:
    """The wheel."""
    info = f"{NAME}-{version}.dist-info"
    readme = (
        files["arena_lab/README.md"].text.decode()
        if "arena_lab/README.md" in files
        else ""
    )
    whole = {
        **files,
        f"{info}/METADATA": File(metadata(project, version, readme).encode(), READABLE),
        f"{info}/WHEEL": File(
            f"Wheel-Version: 1.0\nGenerator: arena\nRoot-Is-Purelib: false\n"
            f"Tag: py3-none-{tag_of(glibc)}\n".encode(),
            READABLE,
        ),
        f"{info}/entry_points.txt": File(ENTRY_POINTS.encode(), READABLE),
    }
    record = f"{info}/RECORD"
    rows = [
        f"{path},sha256={digest_of(file.text)},{len(file.text)}"
        for path, file in sorted(whole.items())
    ]
    items: List[Tuple[str, File]] = sorted(whole.items())
    items.append(
        (record, File("\n".join([*rows, f"{record},,", ""]).encode(), READABLE))
    )
    buffer = io.BytesIO()
    moment = time.gmtime(max(seconds, 315_532_800))[:6]
    with zipfile.ZipFile(buffer, "w", zipfile.ZIP_DEFLATED, compresslevel=9) as archive:
        for path, file in items:
            entry = zipfile.ZipInfo(path, moment)
            entry.compress_type = zipfile.ZIP_DEFLATED
            entry.create_system = 3
            entry.external_attr = (0o100000 | file.mode) << 16
            archive.writestr(entry, file.text)
    return buffer.getvalue()


def digest_of(text: bytes) -> str:
    """The SHA-256 as a wheel's record spells it."""
    return base64.urlsafe_b64encode(hashlib.sha256(text).digest()).rstrip(b"=").decode()


def data(version: str, path: str) -> str:
    """Where a file of the system stands in the wheel, such as
    `share/man/man1/arena.1`."""
    return str(pathlib.PurePosixPath(f"{NAME}-{version}.data", "data", path))
