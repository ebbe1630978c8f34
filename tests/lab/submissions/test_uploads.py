"""Limits on the contents of a hand-in."""
import contextlib
import hashlib
import io
import random
import shutil
import zipfile
from typing import Dict
from unittest import mock

from arena_lab.submissions.submission import SubmissionError
from tests.support.output import InTemporary
from arena_lab.submissions import uploads


def zip_of(
    files: Dict[str, bytes], method: int = zipfile.ZIP_DEFLATED, **links: str
) -> bytes:
    buffer = io.BytesIO()
    with zipfile.ZipFile(buffer, "w", method) as archive:
        for name, content in files.items():
            archive.writestr(name, content)
        for name, target in links.items():
            entry = zipfile.ZipInfo(name)
            entry.external_attr = 0o120777 << 16
            archive.writestr(entry, target)
    return buffer.getvalue()


class Unpacking(InTemporary):
    """What is handed in is bounded, and stays in its folder."""

    def files_of(self, payload: bytes, name: str = "agent.py") -> Dict[str, bytes]:
        """The files that come of what is sent."""
        folder = self.folder / "files"
        shutil.rmtree(folder, ignore_errors=True)
        result = uploads.unpack_upload(payload, name, folder)
        paths = [path for path in sorted(folder.rglob("*")) if path.is_file()]
        self.assertEqual(
            result[:2], (sum(path.stat().st_size for path in paths), len(paths))
        )
        return {str(path.relative_to(folder)): path.read_bytes() for path in paths}

    def assert_refused(self, payload: bytes, why: str) -> None:
        with self.assertRaisesRegex(SubmissionError, why):
            self.files_of(payload)

    def test_texts_are_written_as_a_zip_of_them_is_unpacked(self) -> None:
        texts = {"agent.py": "print('\u00e9')\r\n", "client.py": ""}
        self.assertEqual(
            uploads.write_texts(texts, self.folder / "texts"),
            uploads.unpack_upload(
                zip_of({name: text.encode() for name, text in texts.items()}),
                "agent.py",
                self.folder / "zip",
            ),
        )

    def test_a_file_and_a_zip(self) -> None:
        self.assertEqual(self.files_of(b"print()"), {"agent.py": b"print()"})
        for method in (zipfile.ZIP_STORED, zipfile.ZIP_DEFLATED):
            self.assertEqual(
                self.files_of(zip_of({"agent.py": b"1", "a/b.py": b"2"}, method)),
                {"agent.py": b"1", "a/b.py": b"2"},
            )
        self.assertEqual(
            self.files_of(zip_of({"top/agent.py": b"1", "top/b.py": b"2"})),
            {"agent.py": b"1", "b.py": b"2"},
        )

    def test_the_digest_is_of_names_and_contents(self) -> None:
        digests = {
            uploads.unpack_upload(payload, "a", self.folder / str(index)).digest
            for index, payload in enumerate(
                (
                    zip_of({"a": b"b", "b": b""}),
                    zip_of({"b": b"", "a": b"b"}),
                    zip_of({"a": b"", "b": b"b"}),
                    b"b",
                )
            )
        }
        self.assertEqual(len(digests), 3)
        message = uploads.unpack_upload(b"b", "a", self.folder / "one").digest
        self.assertEqual(message, hashlib.sha256(b"1:a1:b").hexdigest())

    def test_names_that_lead_elsewhere(self) -> None:
        for name in (
            "../agent.py",
            "/etc/passwd",
            "a/../../b",
            "a//b",
            "./a",
            "a\\..\\b",
            "a/\x01",
            "a" * 101,
        ):
            with self.subTest(name):
                self.assert_refused(zip_of({name: b"x"}), "no name of a file inside")
        self.assert_refused(zip_of({}, link="/etc/passwd"), "is a link")
        self.assert_refused(zip_of({"a": b"", "a/b": b""}), "is a file and a folder")
        deep = "/".join(["d"] * 9)
        self.assert_refused(zip_of({f"a/{deep}": b"", "b": b""}), "more than 8 deep")
        self.assertEqual(
            self.files_of(zip_of({deep: b"", "b": b""})).keys(), {deep, "b"}
        )

    def test_many_folders(self) -> None:
        """An archive of 424 KB with 62,000 folders took 274 MB of the disk."""
        files = {f"d{number}/f": b"x" for number in range(65)}
        self.assert_refused(zip_of(files), "more than 64 folders")
        del files["d64/f"]
        self.assertEqual(self.files_of(zip_of(files)), files)

    def test_bombs(self) -> None:
        """Of each method, with many entries, with long names and nested: each is
        refused, or taken as it stands, by a process that has less than 100 MB."""
        zeros = bytes(uploads.MAX_BYTES + 1)
        half = bytes(uploads.MAX_BYTES // 2 + 1)
        bomb = zip_of({"zeros": zeros})
        many = {f"f{number}": b"" for number in range(uploads.MAX_FILES + 1)}
        long = {f"{number:065000}": b"" for number in range(50)}
        for method, payload, why in (
            (zipfile.ZIP_DEFLATED, {"zeros": zeros}, "more than 32 MB"),
            (zipfile.ZIP_DEFLATED, {"one": half, "two": half}, "more than 32 MB"),
            (zipfile.ZIP_BZIP2, {"zeros": zeros}, "zeros is packed by another method"),
            (zipfile.ZIP_LZMA, {"zeros": zeros}, "zeros is packed by another method"),
            (zipfile.ZIP_STORED, many, "2000 files"),
            (zipfile.ZIP_DEFLATED, long, "no name of a file inside"),
        ):
            self.assert_refused(zip_of(payload, method), why)
        self.assertEqual(self.files_of(zip_of({"a": bomb})), {"a": bomb})
        large = {f"{number}": random.randbytes(7_900) for number in range(1_000)}
        self.assertEqual(self.files_of(zip_of(large)), large)
        self.assert_refused(bytes(uploads.MAX_SENT + 1), "more than 8 MB")
        self.assert_refused(uploads.ENTRY * 1_000_000, "2000 files")
        self.assert_refused(b"", "empty")
        self.assertLessEqual(uploads.MEMORY, 100 << 20)

    def test_zips_that_lie(self) -> None:
        """Whatever is broken in a zip, and by whatever method it is packed, it is
        refused or is one file."""
        text = b"print()" * 50
        for method in (zipfile.ZIP_DEFLATED, zipfile.ZIP_BZIP2, zipfile.ZIP_LZMA):
            whole = bytearray(zip_of({"agent.py": text}, method))
            for index in range(0, len(whole), 3):
                broken = bytearray(whole)
                broken[index] ^= 0xFF
                folder = self.folder / f"{method} {index}"
                with contextlib.suppress(SubmissionError):
                    uploads.write_upload(bytes(broken), "agent.py", folder)
                    self.assertLessEqual(uploads.measure_folder(folder).files, 1)

    def test_a_disk_that_is_full_is_no_fault_of_the_zip(self) -> None:
        (self.folder / "files").write_text("")
        with self.assertRaises(OSError):
            uploads.unpack_upload(b"x", "agent.py", self.folder / "files")

    def test_who_takes_too_long_or_ends_is_refused(self) -> None:
        for program in ("import time; time.sleep(9)", "import os; os.abort()", "x"):
            with mock.patch.object(uploads, "UNPACKS", program), mock.patch.object(
                uploads, "SECONDS", 0.5
            ):
                self.assert_refused(b"x", "cannot be unpacked within")
