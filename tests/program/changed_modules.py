"""Explores modules with changed bytes: none may end the program otherwise than with a
line.

    python3 -m tests.program.changed_modules PROGRAM [COUNT]

Each is a copy of the sample module, some cut short, with one to three bytes drawn anew;
COUNT is 10000 if it is not given. The last line reads `N passed, M failed`, and the
exit status is 1 if one failed.
"""
import pathlib
import sys
import tempfile

from tests.program.refused_modules import is_harmless
from tests.support.counts import report_counts
from tests.support.program_rows import Stage


def main() -> int:
    if len(sys.argv) not in (2, 3) or sys.argv[1] in ("-h", "--help"):
        sys.exit((__doc__ or "").strip())
    program = sys.argv[1]
    count = int(sys.argv[2]) if len(sys.argv) == 3 else 10_000
    failure_count = 0
    with tempfile.TemporaryDirectory(prefix="modules-") as folder:
        stage = Stage(program, pathlib.Path(folder))
        for seed in range(count):
            if not is_harmless(stage, seed):
                print(f"FAILED seed {seed}", flush=True)
                failure_count += 1
    return report_counts(count - failure_count, failure_count)


if __name__ == "__main__":
    sys.exit(main())
