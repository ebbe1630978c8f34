"""Builds the Debian package from a clone in a bare Debian, and compares its bytes with
the package built here.

    sudo python3 -m tests.release.from_clone [--unproved] [--root FOLDER]

Makes a root by `debootstrap`, in FOLDER or in a temporary one, and binds the toolchain
into it. Clones this repository's commit there, and copies the programs that are built
here; the package build makes the others. `apt-get build-dep` installs the packages of
Debian that debian/control names. Then `dpkg-buildpackage` runs without a network. It
needs root, and takes some minutes. The last line reads `N passed, M failed`, and the exit status
is 1 if one failed.
"""
import argparse
import pathlib
import shutil
import sys
from typing import List

from tests.release.bare import clone
from tests.release.installed import make_release, run
from tests.support import roots
from tests.support.counts import FailedCheckError, report_counts, require
from tools.prove.prover import KIT, TOP

# the repository's path in the root; it has the same depth as here, because build
# records contain relative paths to the toolchain
HOME = pathlib.PurePath(*(f"folder{index}" for index in range(len(TOP.parts) - 1)))
UNPROVED = "out/unproved"


def build(root: pathlib.Path, options: List[str]) -> pathlib.Path:
    """Builds the package in the root, and gives where it is."""
    roots.make(root, ["python3"])
    clone(root / HOME, "")
    if options and (TOP / UNPROVED).is_dir():
        shutil.copytree(TOP / UNPROVED, root / HOME / UNPROVED)
    inside = roots.inside(root, f"/{HOME}")
    with roots.mount_root(root, {KIT: str(KIT).lstrip("/")}):
        run([*inside, "apt-get", "update"], TOP)
        run([*inside, "apt-get", "build-dep", "-y", "./"], TOP)
        words = ["unshare", "--net", "dpkg-buildpackage", "-b", "-us", "-uc"]
        run([*inside, "env", f"DEB_BUILD_OPTIONS={' '.join(options)}", *words], TOP)
    (package,) = (root / HOME).parent.glob("arena_*.deb")
    return package


def main() -> int:
    parser = argparse.ArgumentParser(
        "python3 -m tests.release.from_clone",
        description=__doc__,
        formatter_class=argparse.RawDescriptionHelpFormatter,
    )
    parser.add_argument("--unproved", action="store_true", help="without a proof")
    parser.add_argument(
        "--root", metavar="FOLDER", type=pathlib.Path, help="where the Debian is made"
    )
    words = parser.parse_args()
    failure_count = 0
    with roots.temporary() as folder:
        try:
            package = build(
                words.root or folder / "root", ["unproved"] if words.unproved else []
            )
            here = make_release(
                folder / "here", ["--unproved"] if words.unproved else []
            )
            require(
                here[".deb"].read_bytes() == package.read_bytes(),
                f"{package.name} has other bytes than the one that is made here",
            )
        except FailedCheckError as fault:
            failure_count = 1
            print(f"FAILED a package from a clone: {fault}")
    return report_counts(1 - failure_count, failure_count)


if __name__ == "__main__":
    sys.exit(main())
