"""A Debian package of the program and the lab, by dpkg-deb. The same files give the
same bytes."""
import gzip
import hashlib
import os
import pathlib
import subprocess
import tempfile
from typing import Dict

from tools.pack.wheel import READABLE, RUNNABLE, File, Files

HOME = "usr/lib/arena/"
DOCUMENTS = "usr/share/doc/arena/"
SITE = DOCUMENTS + "html/"
# the page on which one writes agents, in an archive
PLAY = "play/"
# files installed in the documents' folder instead of the program's
DOCUMENT_FILES = ("README.md", "CHANGELOG.md", "docs/")
# what leads elsewhere
LINKS = {
    "usr/bin/arena": "../lib/arena/arena",
    DOCUMENTS + "examples": "../../../lib/arena/examples",
    DOCUMENTS + "arena_lab": "../../../lib/arena/arena_lab",
    "usr/share/bash-completion/completions/arena-lab": "arena",
}
LAB = f"""#!/usr/bin/python3
import sys

sys.path.insert(0, "/{HOME.rstrip('/')}")
from arena_lab.start import lab

sys.exit(lab())
"""
CONTROL = """Package: arena
Version: {version}
Architecture: amd64
Maintainer: The arena project <arena@localhost>
Installed-Size: {size}
Depends: libc6 (>= {glibc}), python3 (>= 3.11), python3-greenlet, python3-jinja2, python3-tqdm
Recommends: python3-hypothesis, python3-networkx, python3-numpy, python3-scipy, python3-matplotlib
Suggests: python3-distributed, python3-aiohttp, bubblewrap, python3-seccomp, python3-pandas, jupyter-notebook,
 python3-django, python3-djangorestframework, python3-waitress, python3-whitenoise, python3-psycopg2,
 python3-authlib, python3-requests, libjs-codemirror
Section: science
Priority: optional
Description: contest server for black hole search by mobile agents
 Agents explore an anonymous network in which some nodes destroy every agent that
 arrives. The server arena serves contests, judges replays and ranks teams, and
 {claim}
 The lab, arena-lab, plays agents under chosen schedules, shows matches, and serves a
 hall for a course.
"""
CLAIMS = {
    True: "what it tells agents is proved: /usr/share/doc/arena/PROVED.txt says by what.",
    False: "this build of it is not proved. Do not publish it.",
}
# the hall as a service, which the teacher enables once there is a course
SERVICE = "arena_lab/hall/arena-hall.service"
SYSTEM = "usr/lib/systemd/system/arena-hall.service"
POSTINST = """#!/bin/sh
set -e
if [ -d /run/systemd/system ]; then
    systemctl daemon-reload
fi
"""
# Python keeps what it has compiled beside the lab, if root runs it
PRERM = f"""#!/bin/sh
set -e
if [ "$1" = remove ] && [ -d /run/systemd/system ]; then
    systemctl --no-reload disable --now arena-hall.service || true
fi
find /{HOME.rstrip('/')} -name __pycache__ -type d -prune -exec rm -rf {{}} +
"""


class PackageError(Exception):
    """The package cannot be made; says what to do."""


def files_of(
    files: Files, pages: Dict[str, str], completions: Dict[str, str], site: Files
) -> Files:
    """The files of the package by their paths, but for links."""
    package_files = {
        (DOCUMENTS if path.startswith(DOCUMENT_FILES) else HOME) + path: file
        for path, file in files.items()
        # the site has the page on which one writes agents
        if path != "SHA256SUMS" and not path.startswith(PLAY)
    }
    for name in ("PROVED.txt", "UNPROVED.txt"):
        if name in files:
            package_files[DOCUMENTS + name] = files[name]
    package_files["usr/bin/arena-lab"] = File(LAB.encode(), RUNNABLE)
    if SERVICE in files:
        package_files[SYSTEM] = files[SERVICE]
    for name, text in pages.items():
        package_files[f"usr/share/man/man1/{name}.gz"] = File(
            gzip.compress(text.encode(), 9, mtime=0), READABLE
        )
    for path, text in completions.items():
        package_files[f"usr/share/{path}"] = File(text.encode(), READABLE)
    return {**package_files, **{SITE + path: file for path, file in site.items()}}


def control(files: Files, version: str, glibc: str, is_proved: bool) -> Files:
    """What dpkg is told of the package."""
    size = sum(len(file.text) for file in files.values()) // 1024 + 1
    text = CONTROL.format(
        version=version, size=size, glibc=glibc, claim=CLAIMS[is_proved]
    )
    sums = "".join(
        f"{hashlib.md5(file.text).hexdigest()}  {path}\n"
        for path, file in sorted(files.items())
    )
    return {
        "DEBIAN/control": File(text.encode(), READABLE),
        "DEBIAN/md5sums": File(sums.encode(), READABLE),
        "DEBIAN/prerm": File(PRERM.encode(), RUNNABLE),
        "DEBIAN/postinst": File(POSTINST.encode(), RUNNABLE),
    }


def pack(files: Files, links: Dict[str, str], seconds: int) -> bytes:
    """The package of these files and links, all of one time and owned by root."""
    with tempfile.TemporaryDirectory() as name:
        top = pathlib.Path(name) / "top"
        for path, file in files.items():
            path_in_package = top / path
            path_in_package.parent.mkdir(parents=True, exist_ok=True)
            path_in_package.write_bytes(file.text)
            path_in_package.chmod(file.mode)
        for path, target in links.items():
            (top / path).parent.mkdir(parents=True, exist_ok=True)
            (top / path).symlink_to(target)
        for path_in_package in [top, *top.rglob("*")]:
            if path_in_package.is_dir() and not path_in_package.is_symlink():
                path_in_package.chmod(0o755)
            os.utime(path_in_package, (seconds, seconds), follow_symlinks=False)
        package = pathlib.Path(name) / "made.deb"
        words = [
            "dpkg-deb",
            "--root-owner-group",
            "-Zxz",
            "--threads-max=1",
            "--build",
            str(top),
            str(package),
        ]
        try:
            subprocess.run(
                words,
                check=True,
                stdout=subprocess.DEVNULL,
                stderr=subprocess.PIPE,
                env={**os.environ, "SOURCE_DATE_EPOCH": str(seconds)},
            )
        except FileNotFoundError:
            raise PackageError(
                "dpkg-deb is missing: install Debian's package dpkg"
            ) from None
        except subprocess.CalledProcessError as fault:
            raise PackageError(
                f"dpkg-deb: {fault.stderr.decode(errors='replace').strip()}"
            ) from None
        return package.read_bytes()
