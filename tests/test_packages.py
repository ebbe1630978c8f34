"""The wheel and the Debian package of a release, man pages and completions: what they
have, and that bytes are alike.

What is installed is tried by tests/release/installed.py.
"""
import argparse
import base64
import csv
import gzip
import hashlib
import io
import pathlib
import re
import subprocess
import unittest
import zipfile
from typing import Dict, List

from arena_lab import INSTALLED_COMMAND
from arena_lab.__main__ import COMMANDS, parser
from arena_lab.command_line import statuses
from tests import TOP, needs
from tests.support.output import InTemporary, write
from tests.test_gate import module

release = module(TOP / "tools" / "release")
debian = release.debian
manual = release.manual
wheel = release.wheel
PROJECT = (TOP / "pyproject.toml").read_bytes()
READABLE = wheel.READABLE
RUNNABLE = wheel.RUNNABLE
PROGRAMS = ("arena", "bhs_player")
RELEASED = {
    "play/index.html": "writes\n",
    "README.md": "read\n",
    "CHANGELOG.md": "changes\n",
    "docs/THEOREMS.md": "claims\n",
    "arena_lab/support/built.py": "built = 1\n",
    "arena_lab/README.md": "# The lab\n",
    "examples/agents/ring.py": "agent\n",
    "examples/contest.py": "contest\n",
    "BUILD": "arena 1.2.3, proved\n",
    "PROVED.txt": "proved\n",
    "VERSION": "1.2.3\n",
    "tools/prove/version.py": "",
    "SHA256SUMS": "sums\n",
}
# as `arena --help` and `arena serve --help` lay out theirs
FIRST = """A server.

Usage: arena <COMMAND>

Commands:
  serve  Serves a tournament
  check  Reads a tournament
  help   Print this message

Options:
  -h, --help
          Print help

  -V, --version
          Print version
"""
SERVE = """Serves.
.first
'second \\ third

Usage: arena serve [OPTIONS] --port <PORT>

Options:
      --port <PORT>
          The port, as in --address 192.0.2.7

  -h, --help
          Print help

Exit status:

  0  Served
"""


def files() -> Dict[str, object]:
    results = {
        path: wheel.File(text.encode(), READABLE) for path, text in RELEASED.items()
    }
    programs = {f"bin/{name}": wheel.File(b"\x7fELF", RUNNABLE) for name in PROGRAMS}
    return {**results, **programs, "arena": wheel.File(b"#!/bin/sh\n", RUNNABLE)}


def helps() -> List[object]:
    return [
        manual.Help("arena", "a server", FIRST),
        manual.Help("arena serve", "Serves a tournament.", SERVE),
    ]


class Manuals(InTemporary):
    def test_options_are_those_of_the_help_text(self) -> None:
        self.assertEqual(
            [it.options() for it in helps()],
            [["--help", "--version"], ["--port", "--help"]],
        )

    def test_the_commands_of_a_program_are_found(self) -> None:
        text = f"#!/bin/sh\n[ $1 = --help ] && cat <<'E' || cat <<'F'\n{FIRST}E\n{SERVE}F\n"
        helps = manual.of_program(str(write(self.folder / "arena", text, 0o755)))
        self.assertEqual(
            [(it.words, it.about) for it in helps[1:]],
            [
                ("arena serve", "Serves a tournament"),
                ("arena check", "Reads a tournament"),
            ],
        )

    def test_a_page_has_the_whole_help_text(self) -> None:
        result = manual.pages(helps(), "1.2.3", "2026-11-26")
        self.assertEqual(sorted(result), ["arena-serve.1", "arena.1"])
        page = result["arena-serve.1"]
        self.assertIn('.TH ARENA\\-SERVE 1 "2026-11-26" "arena 1.2.3"', page)
        for line in (
            "arena\\-serve \\- Serves a tournament\n",
            "\\&.first\n",
            "\\&'second \\e third\n",
            ".SH OPTIONS\n",
            "      \\-\\-port <PORT>\n",
            ".SH EXIT STATUS\n",
            ".SH SEE ALSO\n.BR arena (1)\n",
        ):
            self.assertIn(line, page)
        self.assertIn(".BR arena-serve (1)", result["arena.1"])

    @needs("groff", "groff-base")
    def test_a_page_is_laid_out_without_a_warning(self) -> None:
        for text in manual.pages(
            [*helps(), *manual.of_lab()], "1.2.3", "2026-11-26"
        ).values():
            result = subprocess.run(
                ["groff", "-man", "-Tutf8", "-ww", "-rLL=120n"],
                input=text.encode(),
                capture_output=True,
            )
            self.assertEqual((result.returncode, result.stderr), (0, b""), text[:40])

    def test_each_option_of_the_lab_has_its_place(self) -> None:
        results = {it.words: it for it in manual.of_lab()}
        self.assertEqual(
            set(results),
            {INSTALLED_COMMAND, *(f"{INSTALLED_COMMAND} {name}" for name in COMMANDS)},
        )
        commands = next(
            action for action in parser()._actions if action.dest == "command"
        ).choices
        pages = manual.pages(list(results.values()), "1", "d")
        completion = manual.completion(list(results.values()))
        for name, command in commands.items():
            first = results[f"{INSTALLED_COMMAND} {name}"]
            options = {
                option
                for action in command._actions
                for option in action.option_strings
                if option[1] == "-" and action.help != argparse.SUPPRESS
            }
            self.assertEqual(set(first.options()), options, name)
            case = re.search(rf'^        {name}\) options="(.*)" ;;$', completion, re.M)
            self.assertEqual(set(case[1].split()), options, name)
            for option in options:
                self.assertIn(
                    option.replace("-", "\\-"), pages[f"{INSTALLED_COMMAND}-{name}.1"]
                )
            self.assertNotIn("./arena\\-lab", pages[f"{INSTALLED_COMMAND}-{name}.1"])

    def test_bash_completes(self) -> None:
        script = self.folder / "arena"
        script.write_text(manual.completion([*helps(), *manual.of_lab()]))

        def complete(command: str, *words: str) -> List[str]:
            ask = (
                f'. {script}; COMP_WORDS=({command} {" ".join(map(repr, words))}); '
                f'COMP_CWORD={len(words)}; _{command.replace("-", "_")}; echo "${{COMPREPLY[@]}}"'
            )
            result = subprocess.run(
                ["bash", "-c", ask],
                cwd=self.folder,
                capture_output=True,
                text=True,
                check=True,
            )
            return result.stdout.split()

        self.assertEqual(complete("arena", "se"), ["serve"])
        self.assertEqual(complete("arena", "serve", "--p"), ["--port"])
        self.assertEqual(complete("arena", "serve", "are"), ["arena"])
        self.assertEqual(complete("arena-lab", "hunt", "--any"), ["--any-home"])
        self.assertEqual(complete("arena-lab", "repl"), ["replay"])

    def completed_by(self, shell: str, *words: str) -> str:
        """What a shell prints that is given the completions of a program."""
        for path, text in manual.completions([*helps(), *manual.of_lab()]).items():
            write(self.folder / pathlib.PurePath(path).name, text)
        result = subprocess.run(
            [shell, *words], cwd=self.folder, capture_output=True, text=True
        )
        self.assertEqual(result.stderr, "")
        return result.stdout

    @needs("fish", "fish")
    def test_fish_completes(self) -> None:
        for line, expectation in (
            ("arena se", "serve\tServes a tournament\n"),
            ("arena serve --p", "--port\n"),
            ("arena-lab hunt --any", "--any-home\n"),
            (
                "arena-lab repl",
                "replay\tplay a schedule again, and compare every byte\n",
            ),
        ):
            program = line.split(" ")[0]
            ask = f"source {program}.fish; complete -C '{line}'"
            self.assertEqual(self.completed_by("fish", "-c", ask), expectation)

    @needs("zsh", "zsh")
    def test_zsh_completes(self) -> None:
        # what the functions of zsh would be given
        for line, expectation in (
            ("arena se", "serve:Serves a tournament"),
            ("arena serve --p", "--port"),
            ("arena-lab hunt --any", "--any-home"),
            ("arena-lab repl", "replay:play a schedule again, and compare every byte"),
        ):
            ask = (
                "_describe() { print -l $commands }; compadd() { print -l -- $* };"
                f"words=({line}); CURRENT=$#words; PREFIX=$words[-1];"
                "service=$words[1]; . ./_arena"
            )
            result = self.completed_by("zsh", "-f", "-c", ask)
            self.assertIn(expectation, result.splitlines())

    def test_each_status_of_a_command_of_the_lab_is_told(self) -> None:
        self.assertEqual({*statuses.EXIT_MEANINGS}, {*COMMANDS})
        results = {it.words: it.text for it in manual.of_lab()}
        for name in COMMANDS:
            text = results[f"{INSTALLED_COMMAND} {name}"]
            message = text.rpartition("exit status:\n")[2]
            self.assertEqual(
                [int(line.split()[0]) for line in message.splitlines()],
                [*statuses.statuses(name)],
            )


class Wheels(unittest.TestCase):
    def pack(self) -> bytes:
        extra = {
            wheel.data("1.2.3", "share/man/man1/arena.1"): wheel.File(b"page", READABLE)
        }
        made: bytes = wheel.pack(
            wheel.files_of(files(), extra), PROJECT, "1.2.3", "2.34", 1_700_000_000
        )
        return made

    def test_it_has_the_lab_and_the_program(self) -> None:
        self.assertEqual(
            wheel.name_of("1.2.3", "2.34"),
            "arena_lab-1.2.3-py3-none-manylinux_2_34_x86_64.whl",
        )
        with zipfile.ZipFile(io.BytesIO(self.pack())) as archive:
            self.assertEqual(
                archive.namelist(),
                [
                    "arena_lab-1.2.3.data/data/share/man/man1/arena.1",
                    "arena_lab-1.2.3.dist-info/METADATA",
                    "arena_lab-1.2.3.dist-info/WHEEL",
                    "arena_lab-1.2.3.dist-info/entry_points.txt",
                    "arena_lab/README.md",
                    "arena_lab/docs/THEOREMS.md",
                    "arena_lab/examples/agents/ring.py",
                    "arena_lab/examples/contest.py",
                    "arena_lab/program/BUILD",
                    "arena_lab/program/PROVED.txt",
                    "arena_lab/program/arena",
                    "arena_lab/program/bhs_player",
                    "arena_lab/support/built.py",
                    "arena_lab-1.2.3.dist-info/RECORD",
                ],
            )
            for name in PROGRAMS:
                self.assertEqual(
                    archive.getinfo(f"arena_lab/program/{name}").external_attr >> 16,
                    0o100755,
                )
            message = archive.read("arena_lab-1.2.3.dist-info/METADATA").decode()
            for line in (
                "Name: arena-lab",
                "Version: 1.2.3",
                "Requires-Python: >=3.11",
                "Requires-Dist: greenlet",
                'Requires-Dist: hypothesis; extra == "hunt"',
                "Provides-Extra: sweep",
            ):
                self.assertIn(line, message.split("\n"))
            for path, digest, size in csv.reader(
                archive.read("arena_lab-1.2.3.dist-info/RECORD").decode().split()
            ):
                if not path.endswith("RECORD"):
                    text = archive.read(path)
                    sha256 = (
                        base64.urlsafe_b64encode(hashlib.sha256(text).digest())
                        .rstrip(b"=")
                        .decode()
                    )
                    self.assertEqual(
                        (f"sha256={sha256}", str(len(text))), (digest, size)
                    )

    def test_two_are_alike(self) -> None:
        self.assertEqual(self.pack(), self.pack())


@needs("dpkg-deb", "dpkg")
class DebianPackages(InTemporary):
    def pack(self, is_proved: bool = True) -> bytes:
        result = debian.files_of(
            files(),
            {"arena.1": "page\n"},
            {"bash-completion/completions/arena": "completes\n"},
            {"docs/MODEL.html": wheel.File(b"a page", READABLE)},
        )
        message = debian.control(result, "1.2.3", "2.34", is_proved)
        made: bytes = debian.pack({**result, **message}, debian.LINKS, 1_700_000_000)
        return made

    def unpack(self, made: bytes) -> pathlib.Path:
        (self.folder / "a.deb").write_bytes(made)
        subprocess.run(["dpkg-deb", "-R", "a.deb", "a"], cwd=self.folder, check=True)
        return self.folder / "a"

    def test_it_has_both_commands_and_the_record_of_the_proof(self) -> None:
        top = self.unpack(self.pack())
        self.assertEqual((top / "usr/bin/arena").resolve(), top / "usr/lib/arena/arena")
        for name in PROGRAMS:
            self.assertEqual(
                (top / "usr/lib/arena/bin" / name).stat().st_mode & 0o777, 0o755
            )
        self.assertEqual((top / "usr/bin/arena-lab").stat().st_mode & 0o777, 0o755)
        self.assertEqual(
            (top / "usr/share/doc/arena/PROVED.txt").read_text(), "proved\n"
        )
        self.assertEqual((top / "usr/lib/arena/PROVED.txt").read_text(), "proved\n")
        self.assertEqual(
            (top / "usr/share/doc/arena/docs/THEOREMS.md").read_text(), "claims\n"
        )
        self.assertEqual(
            (top / "usr/share/doc/arena/examples/contest.py").read_text(), "contest\n"
        )
        self.assertEqual(
            gzip.decompress((top / "usr/share/man/man1/arena.1.gz").read_bytes()),
            b"page\n",
        )
        # the package has this page inside its site
        self.assertFalse((top / "usr/lib/arena/play").exists())
        text = (top / "DEBIAN/control").read_text()
        for line in (
            "Package: arena\n",
            "Version: 1.2.3\n",
            "Depends: libc6 (>= 2.34), python3 (>= 3.11),",
            "is proved: /usr/share/doc/arena/PROVED.txt says by what",
        ):
            self.assertIn(line, text)
        subprocess.run(
            ["md5sum", "--quiet", "-c", "DEBIAN/md5sums"], cwd=top, check=True
        )

    def test_one_without_a_proof_says_so(self) -> None:
        text = (self.unpack(self.pack(False)) / "DEBIAN/control").read_text()
        self.assertIn("this build of it is not proved", text)

    def test_two_are_alike(self) -> None:
        self.assertEqual(self.pack(), self.pack())
