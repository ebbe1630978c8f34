"""Writes the kit of each language, builds it, runs its own test, and plays its sample
agent against a server of the tests and on the program.

    /usr/bin/python3 -m tests.release.kits PROGRAM [LANGUAGE ..]

They need Debian's packages: compilers, and libraries for JSON; Cargo takes Debian's
crates. A kit that lacks one is skipped, and a line says what to install. The last line
reads `N passed, M failed`; for each kit it is told how long it took until its last
match was solved.
"""
import pathlib
import sys
import tempfile
from typing import List

from arena_lab.play.kits import KITS
from tests.support.counts import SKIPPED, report_counts
from tests.support.kits_played import PlayedKit
from tools import packages

# Debian's crates that the kit in Rust needs on a machine which reaches no other
CRATES = ("librust-serde-json-dev",)


def main(arguments: List[str]) -> int:
    if (
        not arguments
        or arguments[0] in ("-h", "--help")
        or not set(arguments[1:]) <= set(KITS)
    ):
        print((__doc__ or "").strip())
        return 0 if arguments and arguments[0] in ("-h", "--help") else 2
    program = str(pathlib.Path(arguments[0]).resolve())
    chosen = arguments[1:] or list(KITS)
    pass_count = failure_count = 0
    for language in chosen:
        absent = packages.missing(
            [*KITS[language].packages, *(CRATES if language == "rust" else ())]
        )
        if absent:
            print(
                f"{SKIPPED}the kit of {language}: {packages.advice(absent)}", flush=True
            )
            continue
        with tempfile.TemporaryDirectory() as folder:
            try:
                seconds = PlayedKit(language, pathlib.Path(folder), program).all()
            except Exception as fault:
                print(f"FAILED {language}: {fault}", flush=True)
                failure_count += 1
                continue
        print(f"{language}: built, tested and played in {seconds:.0f} s", flush=True)
        pass_count += 1
    return report_counts(pass_count, failure_count)


if __name__ == "__main__":
    sys.exit(main(sys.argv[1:]))
