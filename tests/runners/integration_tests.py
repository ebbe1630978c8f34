"""Runs the tests of the lab on the built program, by Debian's Python with Debian's
packages.

    python3 -m tests.runners.integration_tests PROGRAM [--quick | PACKAGE.FILE ..]

The tests are those of tests/integration/PACKAGE/test_*.py, or of the files that are
named, as many files at a time as there are processors, since most tests wait. A file is
skipped if the machine lacks a package that each of its tests needs
(tools/packages.toml). With --quick the files of SLOW are left out. What a file's tests
print comes once they have ended. The last line reads `N passed, M failed`, and the exit
status is 1 if one failed.
"""
import concurrent.futures
import os
import pathlib
import re
import subprocess
import sys
import time
from typing import Dict, List

from arena_lab.support.missing import DEBIANS_PYTHON
from tests.support.counts import SKIPPED, Counts, report_counts, counts_in
from tools import packages

TOP = pathlib.Path(__file__).resolve().parents[2]
QUICK = "--quick"
# files that search thousands of schedules, which a program with AddressSanitizer does 20
# times as slowly as the proved one
SLOW = re.compile(r"(search|sweep)\..*|play\.test_(kits|known_map|modules)")
# runs tests/runners/python_tests.py and imports no `tools`: agents of the tests have
# modules of that name
RUN = (
    "import runpy; runpy.run_path('tests/runners/python_tests.py', run_name='__main__')"
)


def lacking(name: str) -> List[str]:
    """The packages that each test of a file needs and this machine lacks."""
    groups = packages.groups("gate")
    return packages.missing(
        [*groups["lab"], *(groups["hall"] if name.startswith("hall.") else [])]
    )


def counts_of(name: str, variables: Dict[str, str]) -> Counts:
    """Runs the tests of a file, prints what they said, and gives how many passed and
    failed. A file that has no tests, or whose tests end the process, counts as one that
    failed."""
    start = time.monotonic()
    absent = lacking(name)
    if absent:
        extra = f" and {len(absent) - 1} more" if len(absent) > 1 else ""
        print(
            f"{SKIPPED}tests.integration.{name}: not installed are Debian's {absent[0]}{extra}",
            flush=True,
        )
        return 0, 0
    words = [DEBIANS_PYTHON, "-c", RUN, f"tests.integration.{name}"]
    result = subprocess.run(
        words,
        cwd=TOP,
        env=variables,
        text=True,
        errors="replace",
        stdout=subprocess.PIPE,
        stderr=subprocess.STDOUT,
    )
    output, _, last = result.stdout.rstrip("\n").rpartition("\n")
    counts = counts_in(last)
    passes, failures = counts or (0, 1)
    print(
        f"{output if counts else result.stdout.rstrip()}\n{name}: {time.monotonic() - start:.0f} s",
        flush=True,
    )
    return passes, max(failures, int(result.returncode != 0))


def file_names(is_quick: bool) -> List[str]:
    """Returns the names of the files of tests, as PACKAGE.FILE: all, or the quick ones."""
    names = sorted(
        f"{path.parent.name}.{path.stem}"
        for path in (TOP / "tests" / "integration").glob("*/test_*.py")
    )
    return [name for name in names if not (is_quick and SLOW.fullmatch(name))]


def main() -> int:
    if len(sys.argv) < 2 or sys.argv[1] in ("-h", "--help"):
        sys.exit((__doc__ or "").strip())
    program, *names = sys.argv[1:]
    variables = {**os.environ, "ARENA_PROGRAM": str(pathlib.Path(program).resolve())}
    if names in ([], [QUICK]):
        names = file_names(names == [QUICK])
    with concurrent.futures.ThreadPoolExecutor(len(os.sched_getaffinity(0))) as pool:
        results = list(pool.map(lambda name: counts_of(name, variables), names))
    passes, failures = map(sum, zip(*results))
    return report_counts(passes, failures)


if __name__ == "__main__":
    sys.exit(main())
