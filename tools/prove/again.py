"""Proves a commit with nothing kept, and compares the program with another that was
made of the same commit.

    sudo python3 -m tools.prove.again PROGRAM [--commit COMMIT] [--jobs N]

PROGRAM is what the gate or tools/build has made of COMMIT (HEAD). The commit is proved
and built in a clone of its own, in a mount namespace in which /opt/rattle-kept is
empty, so no proof is taken over. Edits are left out, since no program is made of them.
The last line says that the programs are the same, or names the sections in which they
differ; then the exit status is 1. It takes as long as the proofs of the gate.
"""
import argparse
import hashlib
import os
import pathlib
import re
import shutil
import subprocess
import sys
import tempfile
from typing import Dict, List

from tools.prove.prover import KIT, TOP, workers

KEPT_FOLDER = pathlib.Path("/opt/rattle-kept")
PROGRAM = "bhs_main"
# a row of `readelf --sections --wide`: the name, and behind type and address the place
# in the file and the size
SECTION = re.compile(
    r"^ +\[ *\d+\] (\S+) +(\S+) +[0-9a-f]+ ([0-9a-f]+) ([0-9a-f]+) ", re.M
)
# a section of this type has no bytes in the file
ABSENT = "NOBITS"


def clone_commit(commit: str, folder: pathlib.Path) -> pathlib.Path:
    """A clone of a commit without its edits."""
    clone = folder / "clone"
    subprocess.run(
        ["git", "clone", "-q", "--no-checkout", str(TOP), str(clone)], check=True
    )
    subprocess.run(["git", "checkout", "-q", commit], cwd=clone, check=True)
    for edits in (clone / "crates").glob("*/must-fail"):
        shutil.rmtree(edits)
    return clone


def prove_clone(clone: pathlib.Path, jobs: int) -> pathlib.Path:
    """The program that is made of a clone with nothing kept."""
    empty = clone.parent / "kept"
    empty.mkdir()
    KEPT_FOLDER.mkdir(exist_ok=True)
    script = f'mount --bind "$1" {KEPT_FOLDER} && exec {KIT}/bin/rt ci'
    subprocess.run(
        ["unshare", "--mount", "sh", "-c", script, "sh", str(empty)],
        cwd=clone,
        stdout=sys.stderr,
        env={**os.environ, "RT_JOBS": str(jobs)},
        check=True,
    )
    return clone / "crates" / PROGRAM / "out" / PROGRAM


def sections(program: pathlib.Path) -> Dict[str, bytes]:
    """The bytes of each section of a program."""
    output = subprocess.run(
        ["readelf", "--sections", "--wide", str(program)],
        stdout=subprocess.PIPE,
        text=True,
        check=True,
    ).stdout
    whole = program.read_bytes()
    return {
        name: b""
        if kind == ABSENT
        else whole[int(offset, 16) : int(offset, 16) + int(size, 16)]
        for name, kind, offset, size in SECTION.findall(output)
    }


def differing(program: pathlib.Path, other_program: pathlib.Path) -> List[str]:
    """The sections in which two programs differ."""
    first = sections(program)
    second = sections(other_program)
    return [name for name in {**first, **second} if first.get(name) != second.get(name)]


def compare_programs(program: pathlib.Path, other_program: pathlib.Path) -> int:
    """Says whether two programs are the same, and where they differ."""
    digests = [
        hashlib.sha256(program.read_bytes()).hexdigest()
        for program in (program, other_program)
    ]
    if digests[0] == digests[1]:
        print(f"the same program, SHA-256 {digests[0]}")
        return 0
    print(
        f"they differ in {', '.join(differing(program, other_program)) or 'no section, but in what lies between'}"
    )
    return 1


def main() -> int:
    parser = argparse.ArgumentParser(
        "python3 -m tools.prove.again",
        description=__doc__,
        formatter_class=argparse.RawDescriptionHelpFormatter,
    )
    parser.add_argument(
        "program", metavar="PROGRAM", type=pathlib.Path, help="made of the same commit"
    )
    parser.add_argument(
        "--commit", metavar="COMMIT", default="HEAD", help="what to prove (HEAD)"
    )
    parser.add_argument(
        "--jobs",
        metavar="N",
        type=int,
        default=workers(),
        help="how many proofs at a time",
    )
    words = parser.parse_args()
    with tempfile.TemporaryDirectory(prefix="again-") as folder:
        return compare_programs(
            words.program,
            prove_clone(clone_commit(words.commit, pathlib.Path(folder)), words.jobs),
        )


if __name__ == "__main__":
    sys.exit(main())
