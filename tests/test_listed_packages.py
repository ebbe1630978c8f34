"""Debian's packages that the tests need stand in one list, are installed from there
alone, and fail nothing."""
import re
import unittest
import unittest.mock
from typing import List

from arena_lab.play.kits import KITS
from arena_lab.sandbox import sandboxes
from arena_lab.support.missing import PACKAGES
from tests import TOP
from tools import packages
from tools.pack.debian import CONTROL

# what installs, or names the command for a machine of its own: a root of Debian
INSTALL = [
    "tests/release/bare.py",
    "tests/release/from_clone.py",
    "tests/release/installed.py",
    "tools/packages.py",
]
# no test starts a notebook in Jupyter, and every Debian has the C library
UNTESTED = {"jupyter-notebook", "libc6"}


class Listed(unittest.TestCase):
    def test_each_package_that_is_named_is_listed(self) -> None:
        depends = re.findall(
            r"^(?:Depends|Recommends|Suggests):((?:.|\n )*)", CONTROL, re.M
        )
        names = {
            word.split()[0]
            for words in depends
            for word in re.sub(r"\(.*?\)", "", words).split(",")
        }
        names |= {*PACKAGES.values(), *sandboxes.PACKAGES.split()[2:]}
        names |= {package for kit in KITS.values() for package in kit.packages}
        readme = (TOP / "arena_lab" / "README.md").read_text().replace("\\\n", "")
        names |= {
            word
            for line in re.findall(r"apt-get install (.*)", readme)
            for word in line.split()
        }
        self.assertEqual(
            names - {*packages.package_names("gate", "nightly")} - UNTESTED, set()
        )

    def test_nothing_is_listed_twice(self) -> None:
        listing = packages.package_names("gate", "nightly")
        self.assertEqual(len(listing), len({*listing}))

    def test_nothing_else_of_the_tests_installs(self) -> None:
        results = [
            str(path.relative_to(TOP))
            for top in ("tools", "tests", "bench", ".ci")
            for path in (TOP / top).rglob("*")
            if path.is_file()
            and path.suffix not in (".pyc", ".md")
            and re.search(
                r"""["']apt-get["']|^ *apt-get """,
                path.read_text(errors="replace"),
                re.M,
            )
        ]
        self.assertEqual(sorted(results), INSTALL)


class Installing(unittest.TestCase):
    def install(self, user: int, works: bool) -> str:
        """What is said of a machine that lacks spin; the commands of apt-get go to
        `self.ran`."""
        self.ran: List[str] = []
        there: List[str] = ["strace"]

        def apt(*words: str) -> bool:
            self.ran.append(" ".join(words))
            there.extend(words if works else [])
            return works

        def missing(names: List[str]) -> List[str]:
            return [name for name in names if name not in there]

        with unittest.mock.patch.multiple(
            packages, apt=apt, missing=missing
        ), unittest.mock.patch.object(packages.os, "geteuid", return_value=user):
            return packages.install(["strace", "spin"])

    def test_what_is_missing_is_installed(self) -> None:
        self.assertEqual(self.install(0, True), "")
        self.assertEqual(self.ran, ["install --no-install-recommends spin"])

    def test_who_is_not_root_or_has_no_network_is_told_what_to_install(self) -> None:
        text = "not installed, and tests that need it are skipped; as root: apt-get install spin"
        self.assertEqual((self.install(1000, True), self.ran), (text, []))
        self.assertEqual(self.install(0, False), text)
        self.assertEqual(self.ran, ["install --no-install-recommends spin", "update"])

    def test_what_dpkg_does_not_know_is_missing(self) -> None:
        self.assertEqual(packages.missing(["no-such-package"]), ["no-such-package"])
        with unittest.mock.patch.object(
            packages.subprocess, "run", side_effect=FileNotFoundError
        ):
            self.assertEqual(packages.missing(["bash"]), ["bash"])
