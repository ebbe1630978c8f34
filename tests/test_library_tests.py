"""How tests/runners/library_tests.py makes a crate of the files of tests/library, and
counts what its tests say."""
import pathlib
import subprocess
import sys

from tests import TOP, needs
from tests.runners import library_tests
from tests.support.output import InTemporary, run_call

LINES = "print('test a ... ok'); print('test result: ok. {passed} passed; {failed} failed; 0 ignored'); exit({status})"


class LibraryTests(InTemporary):
    def test_a_crate_is_made_of_the_files(self) -> None:
        libraries = library_tests.make(self.folder)
        places = {
            path.relative_to(self.folder).as_posix()
            for path in self.folder.rglob("*.rt")
        }
        self.assertIn("src/lib.rt", places)
        self.assertEqual(
            len(places), len(list((TOP / "tests" / "library").rglob("*.rs")))
        )
        self.assertIn("bhs_net", libraries["library_tests"])
        self.assertNotIn("bhs_main", libraries["library_tests"])
        self.assertLess(set(libraries["library_tests"]), set(libraries))

    def test_crates_stand_beside_it_to_be_proved(self) -> None:
        folder = library_tests.make_beside_all(self.folder)
        last = (self.folder / "crates.txt").read_text().splitlines()[-1]
        self.assertRegex(last, "^library_tests: (bhs_[a-z_]+ ?)+$")
        self.assertTrue((folder / "src" / "lib.rt").exists())
        self.assertTrue(
            (self.folder / "crates" / "bhs_net" / "src" / "lib.rt").exists()
        )
        self.assertFalse((self.folder / "crates" / "bhs_net" / "out").exists())

    def test_every_file_is_a_module(self) -> None:
        tests = TOP / "tests" / "library"
        for path in tests.rglob("*.rs"):
            above = (
                path.parent.with_suffix(".rs")
                if path.parent != tests
                else tests / "lib.rs"
            )
            self.assertTrue(
                path.stem == "lib" or f"\nmod {path.stem};" in above.read_text(),
                path.name,
            )

    def test_all_is_passed_as_source_with_what_it_stands_on(self) -> None:
        words = library_tests.words_to_try(
            {"low": ["hex"], "high": ["low", "toml"]}, "high", 9, [self.folder / "a.o"]
        )
        sources = dict(
            word.partition(":")[::2]
            for before, word in zip(words, words[1:])
            if before == "--lib"
        )
        self.assertTrue(sources["low"].startswith("core,std,hex="))
        self.assertTrue(sources["low"].endswith("/crates/low/src/lib.rt"))
        self.assertLessEqual(
            {"std", "core", "std_alloc", "hex", "toml", "toml_parser"}, set(sources)
        )
        self.assertNotIn("high", sources)
        linked_value = [
            word for before, word in zip(words, words[1:]) if before == "--link"
        ]
        self.assertEqual(
            [pathlib.Path(it).name for it in linked_value],
            ["a.o", "libos_c.a", "liblibc_c.a"],
        )

    @needs("gcc", "gcc")
    def test_the_program_that_refuses_wraps_requests_alone(self) -> None:
        path = library_tests.refusing(self.folder, self.folder / "kept")
        names = subprocess.run(
            ["nm", path], stdout=subprocess.PIPE, text=True, check=True
        ).stdout
        for name in (
            "T __wrap_malloc",
            "T __wrap_realloc",
            "T rattle_alloc",
            "U malloc",
            "U free",
        ):
            self.assertIn(f" {name}\n", names)
        self.assertNotRegex(names, r" T (read|write|calloc)\n")

    def counts(self, passes: int, failures: int, status: int):
        words = [
            sys.executable,
            "-c",
            LINES.format(passed=passes, failed=failures, status=status),
        ]
        counts, output, _ = run_call(library_tests.run, words, self.folder)
        self.assertIn("test a ... ok\n", output)
        return counts

    def test_tests_are_counted(self) -> None:
        self.assertEqual(self.counts(67, 0, 0), (67, 0))
        self.assertEqual(self.counts(65, 2, 1), (65, 2))

    def test_a_run_that_fails_or_counts_none_is_a_failure(self) -> None:
        self.assertEqual(self.counts(67, 0, 4), (67, 1))
        self.assertEqual(self.counts(0, 0, 0), (0, 1))
