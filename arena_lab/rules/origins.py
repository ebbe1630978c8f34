"""Where a result of the program comes from: which program found it, by which options, of
which files. Whoever has a program and files with these SHA-256 gets the same result.
"""
import contextlib
import hashlib
import os
import pathlib
import re
import tomllib
from typing import Dict, Iterable, Iterator, List, Sequence

from arena_lab.rules.fixtures import network_path
from arena_lab.rules.limits import MAX_TEXT
from arena_lab.rules.model import Object
from arena_lab.rules.refusals import names_in
from arena_lab.support import built
from arena_lab.support.faults import ArenaError

# the records of builds, beside a program and of a release; each names the programs by
# their SHA-256, behind lines of version, commit and toolchain
BESIDE = (built.RECORD, built.ARENA.stamp_path.name)
OF_RELEASE = (built.RELEASE_RECORD, "UNPROVED.txt")
VERSION = re.compile(r"^(?:# )?arena (\S+), (?:un)?proved$", re.M)
COMMIT = re.compile(r"^(?:# )?commit ([0-9a-f]{40}), tree (clean|changed)$", re.M)
TOOLCHAIN = re.compile(r"^(?:# )?toolchain (.+)$", re.M)
DEFAULT = re.compile(r"^ +--([\w-]+) <.*\[default: (\S+)\]$", re.M)
# the option of `table` that begins the names of replays
REPLAYS = "--replay"


class ChangedFileError(ArenaError):
    """A file was changed while the program worked."""


def text_of(word: str) -> str:
    """Returns a word as text that JSON can hold: bytes that are not UTF-8 are
    replaced."""
    return os.fsencode(word).decode(errors="replace")


def record_with(program: pathlib.Path, digest: str) -> str:
    """Returns the text of the record that names a program by its SHA-256, or ""."""
    folders = (built.TOP, built.ARENA.wheel_path.parent)
    paths = [program.with_name(name) for name in BESIDE]
    paths += [folder / name for folder in folders for name in OF_RELEASE]
    for path in paths:
        with contextlib.suppress(OSError, UnicodeDecodeError):
            text = path.read_text(encoding="utf-8")
            if digest in text:
                return text
    return ""


def program_origin(program: pathlib.Path) -> Object:
    """Returns the program's SHA-256, proof, version, commit and toolchain. Version,
    commit and toolchain are None without a record of the build."""
    digest = built.digest_of(program)
    record = record_with(program, digest)
    version = VERSION.search(record)
    commit = COMMIT.search(record)
    toolchain = TOOLCHAIN.search(record)
    return {
        "name": built.name_of(program),
        "proved": built.has_proof(program),
        "sha256": digest,
        "version": version[1] if version else None,
        "commit": commit[1] if commit else None,
        "tree": commit[2] if commit else None,
        "toolchain": toolchain[1] if toolchain else None,
    }


def networks_of(path: str) -> List[str]:
    """Returns the network of each match of a tournament's file; of other files
    nothing."""
    with contextlib.suppress(OSError, ValueError, KeyError, TypeError):
        file = pathlib.Path(path)
        if file.is_file() and file.stat().st_size <= MAX_TEXT:
            rows = tomllib.loads(file.read_text(encoding="utf-8"))["match"]
            return [network_path(row["network"], file.parent) for row in rows]
    return []


def files_of(words: Sequence[str]) -> Iterator[str]:
    """The files that the words of a command name, with the networks and replays of a
    tournament."""
    options = dict(zip(words, [*words[1:], ""]))
    options.update(word.partition("=")[::2] for word in words if "=" in word)
    for word in words:
        for name in dict.fromkeys([*names_in(word), *names_in(word.partition("=")[2])]):
            yield name
            networks = networks_of(name)
            yield from networks
            if REPLAYS in options:
                for match in range(len(networks)):
                    yield f"{options[REPLAYS]}{match}.jsonl"


def digests_of(files: Iterable[str]) -> Dict[str, str]:
    """Returns the SHA-256 of each readable file. Pipes and devices are left out, since
    their bytes can be read once."""
    digests = {}
    for name in dict.fromkeys(files):
        with contextlib.suppress(OSError, ValueError):
            if os.path.isfile(name):
                with open(name, "rb") as file:
                    digests[name] = hashlib.file_digest(file, "sha256").hexdigest()
    return digests


def defaults_in(help_text: str, words: Sequence[str]) -> Dict[str, str]:
    """Returns the options that the words leave out and that have a default, by the help
    of the command."""
    options = {word.partition("=")[0] for word in words}
    return {
        name: value
        for name, value in DEFAULT.findall(help_text)
        if f"--{name}" not in options
    }


def origin_of(
    program: pathlib.Path, words: Sequence[str], files: Dict[str, str], help_text: str
) -> Object:
    """Returns where the result of a command comes from. `files` are the digests of its
    files before it ran; raises ChangedFileError if one is another now."""
    for name, digest in files.items():
        if digests_of([name]).get(name) != digest:
            raise ChangedFileError(
                f"{name}: it was changed while the program read it: run the command again"
            )
    return {
        "program": program_origin(program),
        "words": [text_of(word) for word in words],
        "defaults": defaults_in(help_text, words),
        "files": [
            {"file": text_of(name), "sha256": digest} for name, digest in files.items()
        ],
    }
