"""Installs a release and plays it, as a researcher would: the wheel in a virtual
environment of Python, and the Debian package in a bare Debian 12.

    python3 -m tests.release.installed [--unproved] [--root FOLDER] [--only wheel|debian] [--system]

Makes the release twice and compares the bytes. Then it installs the wheel with `pip`,
which fetches greenlet and others, and the Debian package with `apt-get` in a root that
`debootstrap` makes in FOLDER, or in a temporary one. In each it asks for the version,
plays the sample contest (in the root), the first commands of the lab's tutorial and a
page, and looks for man pages and completions. It needs root, debootstrap and a network,
and takes some minutes. The last line reads `N passed, M failed`, and the exit status is
1 if one failed.
"""
import argparse
import os
import pathlib
import subprocess
import sys
import tempfile
from typing import Callable, Dict, List, Sequence

from tests.support import roots
from tests.support.counts import FailedCheckError, report_counts, require

TOP = pathlib.Path(__file__).resolve().parents[2]
DEBIANS_PYTHON = "/usr/bin/python3"
EXTRAS = "hunt,page,sweep"
RING = "examples/agents/ring.py {nodes}"
WRONG = "examples/agents/faulty/reads_once.py {nodes}"
MODULE = "examples/agents/wasm/ring.wasm:{nodes}"
# commands of the lab's tutorial, and what each says
TUTORIAL = (
    (["run", "--agent", RING, "--runs", "20"], 0, "20 schedules: solved 20; failed 0"),
    (["run", "--agent", MODULE, "--runs", "5"], 0, "5 schedules: solved 5; failed 0"),
    (
        ["hunt", "--agent", WRONG, "--keep", "small"],
        1,
        "schedules were tried: the team fails",
    ),
    (
        ["replay", "small"],
        0,
        "the replay is the same, byte for byte: small/match0.jsonl",
    ),
    (
        ["explore", "--network", "ring:4", "--agent", RING],
        0,
        "every schedule that the lab tried solves, by",
    ),
    (["explore", "--agent", RING, "--draws", "100"], 0, "drawn schedules, "),
    (["sweep", "first.toml", "--out", "first"], 0, "40 runs on "),
)


def run(words: Sequence[object], folder: pathlib.Path, status: int = 0) -> str:
    """What a command says, which is to end with this status."""
    result = subprocess.run(
        [str(word) for word in words],
        cwd=folder,
        stdin=subprocess.DEVNULL,
        text=True,
        stdout=subprocess.PIPE,
        stderr=subprocess.STDOUT,
    )
    if result.returncode != status:
        raise FailedCheckError(
            f"{' '.join(map(str, words))}: status {result.returncode}: {result.stdout[-1500:]}"
        )
    return result.stdout


def wants(text: str, expectation: str) -> None:
    require(expectation in text, f"{expectation!r} is not in {text[-1500:]!r}")


def make_release(out: pathlib.Path, words: Sequence[str]) -> Dict[str, pathlib.Path]:
    """A release that is made there: its files by their endings."""
    run([sys.executable, TOP / "tools" / "release", "--out", out, *words], TOP)
    for sums in out.glob("*.sha256"):
        run(["sha256sum", "--quiet", "-c", sums.name], out)
    return {path.suffix: path for path in out.iterdir() if path.suffix != ".sha256"}


def are_alike(first: Dict[str, pathlib.Path], second: Dict[str, pathlib.Path]) -> None:
    if sorted(first) != [".deb", ".gz", ".whl"] or sorted(second) != sorted(first):
        raise FailedCheckError(
            f"the release has {sorted(path.name for path in first.values())}"
        )
    for ending, path in first.items():
        require(
            path.read_bytes() == second[ending].read_bytes(),
            f"{path.name} has other bytes when it is made again",
        )


def plays(
    lab: Sequence[object],
    arena: Sequence[object],
    folder: pathlib.Path,
    is_proved: bool,
) -> None:
    """Tries the version, the tutorial and a page with installed commands."""
    result = run([*arena, "--version"], folder)
    for expectation in (
        f", {'proved' if is_proved else 'unproved'}\n",
        "commit ",
        "toolchain ",
    ):
        wants(result, expectation)
    (folder / "first.toml").write_text((TOP / "experiments" / "first.toml").read_text())
    for words, status, expectation in TUTORIAL:
        result = run([*lab, *words], folder, status)
        wants(result, expectation)
        if words[0] == "hunt":
            wants(result, "again by `arena-lab replay small`")
    if is_proved:
        wants(result, "40 runs on the proved program: solved 40")
    run([*lab, "page", "small/match0.jsonl", "--out", "page.html"], folder)
    for page in ("page.html", "small/match0.html", "first/report.html"):
        wants((folder / page).read_text(), "</html>")


def wheel_plays(wheel: pathlib.Path, is_proved: bool, is_system: bool) -> None:
    """The wheel is installed in a virtual environment, and nothing of this repository
    is seen."""
    with tempfile.TemporaryDirectory() as name:
        folder = pathlib.Path(name)
        run(
            [
                DEBIANS_PYTHON,
                "-m",
                "venv",
                *(["--system-site-packages"] if is_system else []),
                "own",
            ],
            folder,
        )
        binaries = folder / "own" / "bin"
        run([binaries / "pip", "install", "-q", f"{wheel}[{EXTRAS}]"], folder)
        plays([binaries / "arena-lab"], [binaries / "arena"], folder, is_proved)
        for path in (
            "man/man1/arena-serve.1",
            "man/man1/arena-lab-run.1",
            "bash-completion/completions/arena",
        ):
            require(
                (folder / "own" / "share" / path).is_file(),
                f"the wheel installs no share/{path}",
            )


def package_plays(package: pathlib.Path, root: pathlib.Path, is_proved: bool) -> None:
    """The package is installed in a bare Debian."""
    roots.make(root)
    home = root / "home"
    (home / package.name).write_bytes(package.read_bytes())
    inside = roots.inside(root, "/home")
    with roots.mount_root(root):
        run([*inside, "apt-get", "update"], TOP)
        run(
            [
                *inside,
                "apt-get",
                "install",
                "-y",
                "--reinstall",
                "--allow-downgrades",
                f"/home/{package.name}",
            ],
            TOP,
        )
        contest = run(
            [*inside, "python3", "/usr/share/doc/arena/examples/contest.py"], TOP
        )
        require(contest.count(" solved its network\n") == 4, contest)
        # commands run inside, and files are looked at from outside
        for path in ("small", "first"):
            run([*inside, "rm", "-rf", path], TOP)
        plays_inside([*inside], home, is_proved)
        for path in (
            "usr/share/man/man1/arena-serve.1.gz",
            "usr/share/man/man1/arena-lab-run.1.gz",
            "usr/share/bash-completion/completions/arena-lab",
            "usr/share/doc/arena/README.md",
            "usr/share/doc/arena/html/index.html",
        ):
            require((root / path).exists(), f"the package installs no {path}")
        run([*inside, "apt-get", "remove", "-y", "arena"], TOP)
        require(
            not (root / "usr" / "lib" / "arena").exists(),
            "/usr/lib/arena is left when the package is removed",
        )


def plays_inside(inside: List[object], home: pathlib.Path, is_proved: bool) -> None:
    plays([*inside, "arena-lab"], [*inside, "arena"], home, is_proved)


def cases_of(
    args: argparse.Namespace, folder: pathlib.Path
) -> Dict[str, Callable[[], None]]:
    """What is tried, by name. The release is made twice before."""
    options = ["--unproved"] if args.unproved else []
    first = make_release(folder / "one", options)
    second = make_release(folder / "two", options)
    root = args.root or folder / "root"
    results: Dict[str, Callable[[], None]] = {
        "the same bytes twice": lambda: are_alike(first, second)
    }
    if args.only != "debian":
        results["the wheel"] = lambda: wheel_plays(
            first[".whl"], not args.unproved, args.system
        )
    if args.only != "wheel":
        results["the Debian package"] = lambda: package_plays(
            first[".deb"], root, not args.unproved
        )
    return results


def main() -> int:
    parser = argparse.ArgumentParser(
        "python3 -m tests.release.installed",
        description=__doc__,
        formatter_class=argparse.RawDescriptionHelpFormatter,
    )
    parser.add_argument(
        "--unproved", action="store_true", help="with a program without a proof"
    )
    parser.add_argument(
        "--root",
        metavar="FOLDER",
        type=pathlib.Path,
        help="where the Debian is, or is made",
    )
    parser.add_argument(
        "--system",
        action="store_true",
        help="take greenlet and others out of Debian's packages on "
        "this machine, if pip reaches no index",
    )
    parser.add_argument(
        "--only", choices=("wheel", "debian"), help="install this one alone"
    )
    words = parser.parse_args()
    # what is installed must not find this repository
    os.environ.pop("PYTHONPATH", None)
    failure_count = 0
    with roots.temporary() as path:
        cases = cases_of(words, path)
        for title, case in cases.items():
            try:
                case()
                print(f"ok: {title}", flush=True)
            except FailedCheckError as fault:
                failure_count += 1
                print(f"FAILED {title}: {fault}", flush=True)
    return report_counts(len(cases) - failure_count, failure_count)


if __name__ == "__main__":
    sys.exit(main())
