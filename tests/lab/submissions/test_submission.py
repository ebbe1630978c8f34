"""Hand-ins: what is taken, what is left out, and what is refused."""
import io
import os
import pathlib
import socket
import subprocess
import tarfile
import tempfile
import unittest
from typing import Dict
from unittest import mock

from arena_lab.submissions import submission
from arena_lab.submissions.submission import Submission


class HandIns(unittest.TestCase):
    def setUp(self) -> None:
        folder = tempfile.mkdtemp()
        # however deep
        self.addCleanup(subprocess.run, ["rm", "-rf", folder])
        self.folder = pathlib.Path(folder)
        self.team = self.folder / "team"
        self.team.mkdir()
        (self.team / "agent.py").write_text("pass")

    def read_files(self, *names: str) -> Submission:
        return submission.read_paths(
            [self.folder / name for name in names or ("team",)], self.folder
        )

    def unpack(self, hand_in: Submission, **extra: bytes) -> Dict[str, str]:
        """What an archive has: texts of files, and where links lead."""
        with tarfile.open(fileobj=io.BytesIO(hand_in.archive(**extra))) as tar:
            return {
                it.name: tar.extractfile(it).read().decode()
                if it.isfile()
                else f"-> {it.linkname}"
                if it.issym()
                else "folder"
                for it in tar
            }

    def test_files_folders_and_links_are_taken(self) -> None:
        (self.team / "more").mkdir()
        (self.team / "more" / "run").write_text("#!")
        (self.team / "more" / "run").chmod(0o755)
        (self.team / "link").symlink_to("agent.py")
        self.assertEqual(
            self.unpack(self.read_files(), **{"network.toml": b"map"}),
            {
                "agent.py": "pass",
                "link": "-> agent.py",
                "more": "folder",
                "more/run": "#!",
                "network.toml": "map",
            },
        )
        modes = {
            it.name: it.mode
            for it in tarfile.open(fileobj=io.BytesIO(self.read_files().archive()))
        }
        self.assertEqual(
            (modes["agent.py"], modes["more/run"], modes["more"]), (0o600, 0o700, 0o700)
        )

    def test_the_same_files_give_the_same_archive_and_others_another_digest(
        self,
    ) -> None:
        first = self.read_files()
        self.assertEqual(self.read_files().archive(), first.archive())
        (self.team / "agent.py").write_text("Pass")
        self.assertNotEqual(self.read_files().digest(), first.digest())

    def test_no_link_is_followed(self) -> None:
        """What it leads to may be another team's, or a file of the system that never
        ends, as /proc/kmsg is."""
        (self.folder / "secret").write_text("secret")
        for name, leads in (
            ("a", "../secret"),
            ("b", "/proc/kmsg"),
            ("c", "/dev/zero"),
            ("d", "d"),
            ("e", "."),
        ):
            (self.team / name).symlink_to(leads)
        result = self.unpack(self.read_files())
        self.assertEqual(
            result,
            {
                "agent.py": "pass",
                "a": "-> ../secret",
                "b": "-> /proc/kmsg",
                "c": "-> /dev/zero",
                "d": "-> d",
                "e": "-> .",
            },
        )

    def test_a_link_that_the_course_names_is_refused(self) -> None:
        (self.folder / "secret").write_text("secret")
        (self.team / "it").symlink_to(self.folder / "secret")
        (self.team / "inside").symlink_to(self.folder)
        self.assertEqual(
            self.read_files("team/it").refusal, "it is a link: name what it leads to"
        )
        self.assertEqual(
            self.read_files("team/inside/secret").refusal,
            "inside is a link: name what it leads to",
        )

    def test_nothing_is_written_through_a_link(self) -> None:
        """Files that are named later take the place of those of the same name, and of
        links in their way."""
        for name in ("bad", "more"):
            (self.folder / name).mkdir()
        (self.folder / "bad" / "agent.py").symlink_to("/etc/passwd")
        (self.folder / "bad" / "inside").symlink_to("/etc")
        (self.folder / "bad" / "full").mkdir()
        (self.folder / "bad" / "full" / "old").write_text("old")
        (self.folder / "more" / "inside").mkdir()
        (self.folder / "more" / "inside" / "it.txt").write_text("it")
        (self.folder / "more" / "full").write_text("file")
        result = self.unpack(self.read_files("bad", "team", "more"))
        self.assertEqual(
            result,
            {
                "agent.py": "pass",
                "inside": "folder",
                "inside/it.txt": "it",
                "full": "file",
            },
        )

    def test_what_is_neither_file_nor_folder_nor_link_is_left_out(self) -> None:
        os.mkfifo(self.team / "pipe")
        with socket.socket(socket.AF_UNIX) as made:
            made.bind(str(self.team / "socket"))
        (self.team / "x\n\x1b[31m<b>").write_text("x")
        pathlib.Path(os.fsdecode(os.fsencode(self.team) + b"/\xff")).write_text("y")
        self.assertEqual(
            sorted(self.unpack(self.read_files())),
            ["agent.py", "x\n\x1b[31m<b>", "\udcff"],
        )

    def test_bounds(self) -> None:
        with open(self.team / "big", "wb") as file:
            file.truncate(200 << 30)
        self.assertEqual(
            self.read_files(), Submission({}, "its files have more than 32 MB")
        )
        (self.team / "big").unlink()
        self.assertEqual(self.read_files().refusal, "")
        with mock.patch.object(submission, "MAX_FILES", 3):
            for name in "abc":
                (self.team / name).touch()
            self.assertEqual(
                self.read_files().refusal, "it has more than 3 files and folders"
            )
        at = os.open(self.team, os.O_RDONLY)
        for _ in range(1200):
            os.mkdir("d", dir_fd=at)
            at, old = os.open("d", os.O_RDONLY, dir_fd=at), at
            os.close(old)
        os.close(at)
        self.assertEqual(self.read_files().refusal, "its folders are more than 32 deep")
