"""The program as a WebAssembly module under node: its rows give the same bytes as on the
proved program, and its size is kept."""
import gzip
import pathlib
import shutil
import tempfile
import tomllib
import unittest

from tests import TOP
from tests.port import rows
from tests.support.program_rows import Row, Step
from tools.port import module

LACKING = module.missing() or ("" if shutil.which("node") else "apt-get install nodejs")
SIZES = "bytes of arena.wasm"


def row(words: str, status: int = 0) -> Row:
    return Row("", [Step("$", words, b"", b"", b"", status)])


class Lacking(unittest.TestCase):
    def test_rows_that_need_what_the_port_lacks(self) -> None:
        for words, status, is_lacking in (
            ("serve cup.toml --port 4000", 0, True),
            ("recover cup.toml --replay p", 3, True),
            ("recover p0.jsonl.part", 0, False),
            ("serve", 2, False),
            ("serve --help", 0, False),
            ("judge p0.jsonl", 0, False),
        ):
            with self.subTest(words):
                self.assertEqual(rows.is_lacking(row(words, status)), is_lacking)


@unittest.skipIf(LACKING, f"not installed: {LACKING}")
class Module(unittest.TestCase):
    def test_rows_give_the_same_bytes_under_node(self) -> None:
        tests, omissions = rows.rows()
        self.assertGreater(len(tests), 10 * omissions)
        with tempfile.TemporaryDirectory() as folder:
            program = rows.under_node(module.module(), pathlib.Path(folder))
            self.assertEqual(rows.failures(program, tests), [])

    def test_its_size_is_kept(self) -> None:
        """Another rustc or binaryen makes some per cent more or less of the same source: a tenth is let pass."""
        limits = tomllib.loads(
            (TOP / "tests" / "size.toml").read_text(encoding="utf-8")
        )
        plain = module.module().read_bytes()
        sizes = {"plain": len(plain), "packed": len(gzip.compress(plain, 9))}
        for name, size in sizes.items():
            with self.subTest(name):
                self.assertLess(size, 1.1 * limits[SIZES][name])
                self.assertGreater(
                    size, 0.8 * limits[SIZES][name], "lower tests/size.toml"
                )


if __name__ == "__main__":
    unittest.main()
