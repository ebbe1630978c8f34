"""Checks the contents of a release, that it says whether its program is proved, and
that builds are reproducible."""
import contextlib
import json
import os
import pathlib
import re
import shutil
import subprocess
import tarfile
import tempfile
import time
import unittest
import unittest.mock
from typing import Dict, Tuple

# the lab is loaded before tests say that it stands elsewhere
from arena_lab import api  # noqa: F401
from arena_lab.__main__ import COMMANDS
from arena_lab.support import built, missing
from tests import TOP, needs
from tests.support.output import run_call, write
from tests.test_gate import module
from tools import packages
from tools.pack import wheel
from tools.port.module import PACKAGES
from tools.prove import prover, version

release = module(TOP / "tools" / "release")
PROVED_PROGRAM = release.proved_program
NAME = "arena-1.2.3-x86_64-linux"
FILES = {
    "VERSION": "1.2.3\n",
    "README.md": "read\n",
    "CHANGELOG.md": "changes\n",
    "CONTRIBUTING.md": "how\n",
    "arena": "#!/bin/sh\n",
    "docs/THEOREMS.md": "claims\n",
    "examples/contest.py": "print('played')\n",
    "examples/agents/ring.c": "int main(void) { return 0; }\n",
    "arena_lab/support/built.py": "",
    "tests/lab/test.py": "",
    "pyproject.toml": (TOP / "pyproject.toml").read_text(),
    "tools/prove/version.py": "",
    "tools/build": "",
    "crates.txt": "bhs_main:\n",
    "crates/bhs_main/src/main.rt": "main\n",
    ".gitignore": "out/\n",
}

# stands for tools/site, which tests/test_site.py has built twice
PLAY_PAGE = {"play/index.html": wheel.File(b"a page", wheel.READABLE)}
SITE = """
import pathlib, sys
text = (pathlib.Path(__file__).parents[1] / "README.md").read_text()
page = pathlib.Path(sys.argv[2]) / "docs" / "index.html"
page.parent.mkdir()
page.write_text(text)
"""


class Repositories(unittest.TestCase):
    """Tests in a repository of its own, whose program is a copy of a small one of this
    machine."""

    def setUp(self) -> None:
        self.top = pathlib.Path(
            self.enterContext(tempfile.TemporaryDirectory())
        ).resolve()
        for path, text in FILES.items():
            write(self.top / path, text, 0o755 if path == "arena" else 0o644)
        self.git("init", "-q")
        self.git("add", ".")
        self.git("commit", "-q", "-m", "one")
        write(self.top / "kit" / "KIT-ID", "kit 1\n")
        write(self.top / "kit" / "WHAT", "compiler 2\n")
        write(self.top / ".git" / "info" / "exclude", "kit/\n")
        program = self.top / "crates" / "bhs_main" / "out" / "bhs_main"
        write(
            program.with_name(built.RECORD),
            "# arena 1.2.3, proved\n# commit 12\n# toolchain kit 1\n",
        )
        self.proved = write(self.top / "out" / "proved", "", 0o755)
        self.proved.write_bytes(pathlib.Path("/bin/true").read_bytes())
        self.unproved = write(self.top / "out" / "unproved", "", 0o755)
        self.unproved.write_bytes(
            self.proved.read_bytes() + built.UNPROVED_LINE.encode()
        )
        crates = self.top / "crates"
        kit = self.top / "kit"
        self.play_page = release.play_page
        site = write(self.top / "out" / "site.py", SITE)
        for owner, result in (
            (
                release,
                {
                    "CRATES": crates,
                    "KIT": kit,
                    "SITE": site,
                    "proved_program": lambda _: self.proved,
                    "play_page": lambda: dict(PLAY_PAGE),
                },
            ),
            (prover, {"CRATES": crates, "KIT": kit}),
            (version, {"KIT": kit}),
            (built, {}),
        ):
            self.enterContext(
                unittest.mock.patch.multiple(owner, TOP=self.top, **result)
            )
        self.enterContext(
            unittest.mock.patch.object(
                release.unproved, "compiled_program", lambda _: self.unproved
            )
        )

    def git(self, *words: str) -> None:
        who = ["-c", "user.name=N", "-c", "user.email=n@example.org"]
        subprocess.run(["git", *who, *words], cwd=self.top, check=True)


@needs("git", "git")
class Releases(Repositories):
    def make_release(self, *words: str, status: int = 0) -> Tuple[str, str]:
        """What making a release says on standard output and on standard error."""
        result, output, errors = run_call(
            release.main, [*words, "--out", str(self.top / "out" / "release")]
        )
        self.assertEqual(result, status)
        return output, errors

    def archive_files(self, name: str) -> Dict[str, Tuple[str, int]]:
        """The texts and modes of the files of an archive, by their paths."""
        with tarfile.open(self.top / "out" / "release" / f"{name}.tar.gz") as archive:
            self.assertEqual(archive.getnames(), sorted(archive.getnames()))
            results = {}
            for entry in archive.getmembers():
                self.assertEqual(
                    (entry.uid, entry.gid, entry.uname, entry.gname),
                    (0, 0, "root", "root"),
                )
                folder, _, path = entry.name.partition("/")
                self.assertEqual(folder, name)
                results[path] = (
                    archive.extractfile(entry).read().decode(errors="replace"),
                    entry.mode,
                )
        return results

    def test_it_has_what_plays_and_what_was_proved(self) -> None:
        self.assertIn(f"{NAME}.tar.gz: ", self.make_release()[0])
        result = self.archive_files(NAME)
        self.assertEqual(
            sorted(result),
            sorted(
                [
                    "BUILD",
                    "CHANGELOG.md",
                    "PROVED.txt",
                    "README.md",
                    "SBOM.cdx.json",
                    "SHA256SUMS",
                    "VERSION",
                    "arena",
                    "bin/arena",
                    "bin/bhs_player",
                    "bin/ring",
                    "docs/THEOREMS.md",
                    "play/index.html",
                    "examples/agents/ring.c",
                    "examples/contest.py",
                    "arena_lab/support/built.py",
                    "tools/prove/version.py",
                ]
            ),
        )
        runnable = {path for path, (_, mode) in result.items() if mode == 0o755}
        self.assertEqual(runnable, {"arena", "bin/arena", "bin/bhs_player", "bin/ring"})
        build = result["BUILD"][0]
        facts = result["PROVED.txt"][0]
        self.assertRegex(
            build,
            r"^arena 1\.2\.3, proved\ncommit [0-9a-f]{40}, tree clean\ntoolchain kit 1\n"
            r"needs Linux on x86-64 with glibc 2\.\d+ or newer, and Python 3\.11 or newer\n$",
        )
        self.assertTrue(facts.startswith(build))
        for message in (
            release.digest_of(self.proved.read_bytes()),
            "compiler 2",
            "  bhs_main\n",
            "once each was proved",
        ):
            self.assertIn(message, facts)

    def test_no_test_of_the_tree_is_taken(self) -> None:
        """The wheel and the Debian package have what the archive has, and the wheel of
        pip has arena_lab alone."""
        tests = {str(path.relative_to(TOP)) for path in (TOP / "tests").rglob("*.py")}
        self.assertGreater(len(tests), 150)
        self.assertEqual([test for test in tests if release.is_taken(test)], [])
        self.assertEqual([*(TOP / "arena_lab").rglob("test_*.py")], [])

    def test_what_it_takes_is_there(self) -> None:
        for path in release.RELEASE_FILES:
            self.assertTrue((TOP / path).exists(), path)

    def test_the_checksums_are_those_of_the_files(self) -> None:
        self.make_release()
        folder = self.top / "out" / "release"
        subprocess.run(
            ["sha256sum", "--quiet", "-c", f"{NAME}.tar.gz.sha256"],
            cwd=folder,
            check=True,
        )
        subprocess.run(["tar", "-xzf", f"{NAME}.tar.gz"], cwd=folder, check=True)
        subprocess.run(
            ["sha256sum", "--quiet", "-c", "SHA256SUMS"], cwd=folder / NAME, check=True
        )
        self.assertEqual((folder / NAME / "SHA256SUMS").read_text().count("\n"), 16)

    def test_two_archives_of_one_commit_are_alike(self) -> None:
        archive = self.top / "out" / "release" / f"{NAME}.tar.gz"
        results = []
        for seconds in (1, 2_000_000_000):
            for path in FILES:
                os.utime(self.top / path, (seconds, seconds))
            with unittest.mock.patch("time.time", return_value=float(seconds)):
                self.make_release()
            results.append(archive.read_bytes())
        self.assertEqual(*results)

    def release_digests(self, top: pathlib.Path, **variables: str) -> Dict[str, str]:
        """The digests of a release that is made in a folder, with these variables."""
        owners = (release, prover, version, built)
        with contextlib.ExitStack() as stack:
            for owner in owners:
                stack.enter_context(unittest.mock.patch.object(owner, "TOP", top))
            stack.enter_context(unittest.mock.patch.dict(os.environ, variables))
            stack.callback(time.tzset)
            stack.callback(os.umask, os.umask(int(variables["UMASK"], 8)))
            time.tzset()
            out = top / "out" / "release"
            result, _, errors = run_call(release.main, ["--out", str(out)])
        self.assertEqual((result, errors), (0, ""))
        return {
            path.name: release.digest_of(path.read_bytes())
            for path in out.iterdir()
            if path.suffix != ".sha256"
        }

    @needs("dpkg-deb", "dpkg")
    def test_releases_are_alike_in_any_folder_zone_and_locale(self) -> None:
        second = self.top.with_name(f"{self.top.name} elsewhere")
        shutil.copytree(self.top, second, symlinks=True)
        self.addCleanup(shutil.rmtree, second)
        first = self.release_digests(
            self.top, TZ="UTC", LC_ALL="C", COLUMNS="80", UMASK="022"
        )
        two = self.release_digests(
            second,
            TZ="Pacific/Kiritimati",
            LC_ALL="C.UTF-8",
            COLUMNS="200",
            UMASK="077",
        )
        self.assertEqual(len(first), 4)
        self.assertEqual(first, two)

    @needs("dpkg-deb", "dpkg")
    def test_the_debian_package_has_the_site(self) -> None:
        self.make_release()
        folder = self.top / "out" / "release"
        words = ["dpkg-deb", "-R", str(folder / "arena_1.2.3_amd64.deb"), "there"]
        subprocess.run(words, cwd=self.top, check=True)
        page = self.top / "there" / release.debian.SITE / "docs" / "index.html"
        self.assertEqual(page.read_text(), "read\n")

    def test_without_the_page_of_the_browser_there_is_no_release(self) -> None:
        with unittest.mock.patch.object(
            release.play, "missing", lambda: "apt-get install rustc"
        ), unittest.mock.patch.object(release, "play_page", self.play_page):
            self.assertIn(
                "release: the page on which one writes agents cannot be made: apt-get install rustc\n",
                self.make_release(status=1)[1],
            )

    def test_without_the_site_there_is_no_release(self) -> None:
        write(self.top / "out" / "site.py", "raise SystemExit(1)")
        self.assertIn(
            "release: the site was not built: ", self.make_release(status=1)[1]
        )
        self.assertFalse((self.top / "out" / "release").exists())

    def test_the_bill_names_what_is_linked(self) -> None:
        libraries = {"bhs_net": ["thiserror"], "bhs_main": ["bhs_net"]}
        kit = self.top / "kit"
        write(kit / "rlibs" / "thiserror.rlib" / "format", "dep std\ndep quoting\n")
        write(
            kit / "rattle" / "thiserror" / "README.md",
            "Errors, after the Rust crate `thiserror` 2.0.21: `Error`.\n",
        )
        whole = json.loads(release.bill.bill_of(kit, libraries, "2.34"))
        self.assertEqual(
            [component["name"] for component in whole["components"]],
            ["quoting", "std", "thiserror", "glibc"],
        )
        self.assertEqual(
            whole["components"][2]["pedigree"]["ancestors"][0]["purl"],
            "pkg:cargo/thiserror@2.0.21",
        )
        self.assertEqual(whole["components"][2]["version"], "kit 1")

    def test_one_without_a_proof_never_says_proved(self) -> None:
        write(self.top / "README.md", "changed\n")
        name = f"{NAME}-unproved"
        self.assertIn(f"{name}.tar.gz: ", self.make_release("--unproved")[0])
        result = self.archive_files(name)
        self.assertNotIn("PROVED.txt", result)
        self.assertRegex(
            result["BUILD"][0],
            r"^arena 1\.2\.3, unproved\ncommit [0-9a-f]{40}, tree changed\n",
        )
        output = result["UNPROVED.txt"][0]
        self.assertIn("Nothing that this archive has was proved.", output)
        self.assertNotIn(", proved", output)
        self.assertNotIn("once each was proved", output)

    def test_a_tree_that_has_changed_is_refused(self) -> None:
        write(self.top / "README.md", "changed\n")
        self.assertIn(
            "release: the tree has changed since its commit",
            self.make_release(status=1)[1],
        )
        self.git("checkout", "-q", ".")
        write(self.top / "new", "")
        self.assertIn(
            "release: the tree has changed since its commit",
            self.make_release(status=1)[1],
        )

    def test_the_program_is_proved_first(self) -> None:
        for status, message in (
            (0, "says that it is not proved"),
            (1, "the program was not proved"),
        ):
            write(self.top / "tools" / "build", f"#!/bin/sh\nexit {status}\n", 0o755)
            self.git("add", ".")
            self.git("commit", "-q", "-m", "two")
            write(built.ARENA.proved_path, f"one that says {built.UNPROVED_LINE}")
            with unittest.mock.patch.object(release, "proved_program", PROVED_PROGRAM):
                self.assertIn(message, self.make_release(status=1)[1])

    def test_the_other_program_is_refused(self) -> None:
        with unittest.mock.patch.object(
            release, "proved_program", lambda _: self.unproved
        ):
            self.assertIn(
                "this program says that it is not proved",
                self.make_release(status=1)[1],
            )
        with unittest.mock.patch.object(
            release.unproved, "compiled_program", lambda _: self.proved
        ):
            self.assertIn(
                "this program does not say that it is not proved",
                self.make_release("--unproved", status=1)[1],
            )
        self.assertFalse((self.top / "out" / "release").exists())

    def test_without_a_repository_it_says_what_to_do(self) -> None:
        (self.top / ".git").rename(self.top / "git")
        self.assertIn(
            "run it in a git repository", self.make_release("--unproved", status=1)[1]
        )


@needs("git", "git")
class Versions(Repositories):
    def test_a_clone_says_whether_its_program_is_proved(self) -> None:
        head = subprocess.run(
            ["git", "rev-parse", "HEAD"],
            cwd=self.top,
            check=True,
            capture_output=True,
            text=True,
        )
        commit = f"commit {head.stdout.strip()}, tree"
        for is_proved, word, extra in (
            (True, "proved", ""),
            (False, "unproved", f"{version.HOW_TO_PROVE}\n"),
        ):
            with unittest.mock.patch.object(
                built.Binary, "is_proved", lambda _: is_proved
            ):
                self.assertEqual(
                    version.text(),
                    f"arena 1.2.3, {word}\n{commit} clean\ntoolchain kit 1\n{extra}",
                )
        write(self.top / "new", "")
        self.assertEqual(version.commit(), f"{commit} changed")
        (self.top / ".git").rename(self.top / "git")
        self.assertEqual(
            version.commit(), "commit not known: this is no git repository"
        )

    def test_the_toolchain_is_the_one_that_built_the_program(self) -> None:
        write(self.top / "kit" / "KIT-ID", "kit 2\n")
        self.assertEqual(
            (version.recorded_version(), version.installed_version()),
            ("toolchain kit 1", "toolchain kit 2"),
        )
        built.ARENA.proved_path.with_name(built.RECORD).unlink()
        self.assertEqual(version.recorded_version(), "toolchain not known")

    def test_a_release_says_what_it_was_made_of(self) -> None:
        write(self.top / "BUILD", "arena 1.2.3, proved\n")
        with unittest.mock.patch.object(built.Binary, "is_proved", lambda _: False):
            self.assertEqual(version.text(), "arena 1.2.3, proved\n")


class SourcePackage(unittest.TestCase):
    def test_its_version_is_that_of_the_release(self) -> None:
        first = (TOP / "debian" / "changelog").read_text().splitlines()[0]
        self.assertTrue(first.startswith(f"arena ({version.version()}) "), first)

    def test_what_a_build_needs_is_what_the_site_and_its_pages_need(self) -> None:
        text = (TOP / "debian" / "control").read_text().replace("\n ", " ")
        (line,) = re.findall("^Build-Depends: (.*)$", text, re.M)
        needs = {word.split(" ")[0] for word in line.split(", ")}
        site = {
            name for name in packages.package_names("gate") if name.startswith("mkdocs")
        }
        pages = {missing.PACKAGES[need] for need in COMMANDS["page"].needs}
        browser = {*PACKAGES.split(), "libjs-codemirror"}
        rest = {"binutils", "git", "libc6-dev", "python3"}
        self.assertEqual(needs, site | pages | browser | rest)
