"""The hall as a service of systemd: what systemd says of its file, and a hall that a
systemd of its own runs by it.

That systemd is the first process of its own namespaces, over a copy of this system that
is kept in memory. So the service runs behind the walls of its file, and nothing of this
machine is changed.
"""
import json
import os
import pathlib
import shutil
import subprocess
import tempfile
import unittest
from typing import Any, List

from arena_lab.support.built import LAB, TOP
from tests.support.matches import program

UNIT = LAB / "hall" / "arena-hall.service"
SYSTEMD = "/lib/systemd/systemd"
# how exposed systemd may find the service, of 100; and how long the whole play may take
MOST_EXPOSED = 37
PATIENCE = 900
# on which networks the course grades, and fewer for this play
GRADED = 'networks = ["ring:8", "ring:12"]'
FEWER = 'networks = ["ring:5"]\nholes = 1\nseeds = 1'
# what a system starts besides, and has nothing to do with a hall
NOT_STARTED = (
    "systemd-udevd.service systemd-udev-trigger.service systemd-udevd-control.socket "
    "systemd-udevd-kernel.socket systemd-networkd.service systemd-resolved.service systemd-sysctl.service "
    "systemd-modules-load.service systemd-random-seed.service systemd-logind.service dbus.service "
    "dbus.socket nginx.service postgresql.service cron.service"
).split()
# the first process: makes the copy of the system, and becomes its systemd
FIRST = """
set -e
mount --make-rprivate /
mount -t tmpfs tmpfs {folder}/base
mkdir {folder}/base/new {folder}/base/work {folder}/base/root
mount -t overlay overlay -o lowerdir=/,upperdir={folder}/base/new,workdir={folder}/base/work {folder}/base/root
cd {folder}/base/root
mount -t proc proc proc
mount -t sysfs sysfs sys
mount -t cgroup2 cgroup2 sys/fs/cgroup
mount -t tmpfs tmpfs run
mount -t tmpfs tmpfs tmp
mount --rbind /dev dev
mount -t tmpfs tmpfs dev/shm
mkdir -p opt/arena opt/told etc/arena old
mount --bind {top} opt/arena
mount --bind {folder}/told opt/told
cp {program} usr/bin/arena
cp {folder}/arena-lab usr/bin/arena-lab
chmod 755 usr/bin/arena usr/bin/arena-lab
cp {unit} {folder}/look.service etc/systemd/system
for name in {not_started}; do ln -sf /dev/null etc/systemd/system/$name; done
cp {folder}/course.toml etc/arena/course.toml
ip link set lo up
pivot_root . old
umount -l /old
exec env -i container=other PATH=/usr/sbin:/usr/bin:/sbin:/bin {systemd} --system --unit=look.service
"""
LAB_COMMAND = (
    '#!/bin/sh\nPYTHONPATH=/opt/arena exec /usr/bin/python3 -m arena_lab "$@"\n'
)
LOOK = """[Unit]
DefaultDependencies=no
[Service]
Environment=PYTHONPATH=/opt/arena PYTHONDONTWRITEBYTECODE=1
ExecStart=/usr/bin/python3 -m tests.integration.hall.served_service /opt/told
StandardOutput=file:/opt/told/log.txt
StandardError=file:/opt/told/log.txt
"""


@unittest.skipUnless(
    shutil.which("systemd-analyze"), "systemd-analyze is not installed"
)
class Files(unittest.TestCase):
    def test_systemd_understands_the_file(self) -> None:
        """Replaces the installed commands named in the unit file by existing ones."""
        with tempfile.TemporaryDirectory() as name:
            path = pathlib.Path(name) / UNIT.name
            text = UNIT.read_text(encoding="utf-8")
            self.assertIn("ExecStart=/usr/bin/arena-lab ", text)
            path.write_text(
                text.replace("ExecStart=/usr/bin/arena-lab ", "ExecStart=/bin/echo ")
            )
            output = self.analyze("verify", "--man=no", str(path))
        self.assertEqual([line for line in output if "arena-hall" in line], [])

    def test_systemd_finds_it_little_exposed(self) -> None:
        output = self.analyze(
            "security",
            "--offline=true",
            "--no-pager",
            f"--threshold={MOST_EXPOSED}",
            str(UNIT),
        )
        self.assertIn("Overall exposure level", output[-1])

    def analyze(self, *words: str) -> List[str]:
        result = subprocess.run(
            ["systemd-analyze", *words],
            text=True,
            stdout=subprocess.PIPE,
            stderr=subprocess.STDOUT,
        )
        self.assertEqual(result.returncode, 0, result.stdout[-1500:])
        return result.stdout.splitlines() or [""]


def has_all() -> bool:
    """Returns whether namespaces and systemd are available."""
    return (
        os.geteuid() == 0
        and pathlib.Path(SYSTEMD).exists()
        and subprocess.run(
            ["unshare", "--mount", "--pid", "--fork", "--cgroup", "true"],
            stderr=subprocess.DEVNULL,
        ).returncode
        == 0
    )


@unittest.skipUnless(has_all(), "this is not root, or there is no systemd")
class Service(unittest.TestCase):
    def test_systemd_runs_a_hall(self) -> None:
        """A match is played, a program that is handed in is graded behind its walls,
        and a stop leaves nothing."""
        with tempfile.TemporaryDirectory(prefix="service-") as name:
            message = self.play(pathlib.Path(name))
        self.assertEqual(
            (message["match"], message["graded"]), ("solved", [1, 1]), message
        )
        self.assertEqual(
            (
                message["user"],
                message["capabilities"],
                message["result"],
                message["left"],
            ),
            ("arena-hall", "0000000000000000", "success", []),
            message,
        )
        self.assertLess(message["seconds_to_stop"], 20)

    def play(self, folder: pathlib.Path) -> Any:
        """Runs the service and returns its report."""
        for name in ("base", "told"):
            (folder / name).mkdir()
        (folder / "arena-lab").write_text(LAB_COMMAND)
        (folder / "look.service").write_text(LOOK)
        course = (LAB / "hall" / "new.toml").read_text(encoding="utf-8")
        self.assertIn(GRADED, course)
        (folder / "course.toml").write_text(
            course.replace(GRADED, FEWER), encoding="utf-8"
        )
        first = folder / "first.sh"
        first.write_text(
            FIRST.format(
                folder=folder,
                top=TOP,
                program=program(),
                unit=UNIT,
                systemd=SYSTEMD,
                not_started=" ".join(NOT_STARTED),
            )
        )
        words = [
            "unshare",
            "--mount",
            "--pid",
            "--fork",
            "--uts",
            "--ipc",
            "--net",
            "--cgroup",
            "--kill-child",
            "sh",
            str(first),
        ]
        with (folder / "first.txt").open("wb") as faults:
            subprocess.run(
                words,
                timeout=PATIENCE,
                stdin=subprocess.DEVNULL,
                stdout=subprocess.DEVNULL,
                stderr=faults,
            )
        output = "\n".join(
            path.read_text(errors="replace")[-3000:]
            for path in (folder / "first.txt", folder / "told" / "log.txt")
            if path.exists()
        )
        path = folder / "told" / "told.json"
        self.assertTrue(path.exists(), output)
        return json.loads(path.read_text())
