"""The cases of a command that tests the program: each is a function with a title, and
plays in a folder of its own."""
import concurrent.futures
import pathlib
import resource
import tempfile
from typing import Callable, Dict, Sequence, Tuple

from tests.support.counts import report_counts

Case = Callable[[str, pathlib.Path], None]
# how many descriptors a command may have, if the system lets it: some cases have
# hundreds of sockets, and run beside each other
DESCRIPTORS = 65_536


def raise_descriptors() -> None:
    """Raises the bound on descriptors of this process, as far as it may."""
    soft, hard = resource.getrlimit(resource.RLIMIT_NOFILE)
    limit = DESCRIPTORS if hard == resource.RLIM_INFINITY else min(hard, DESCRIPTORS)
    if soft != resource.RLIM_INFINITY and soft < limit:
        resource.setrlimit(resource.RLIMIT_NOFILE, (limit, hard))


class Cases:
    """Registers cases by title, in order. At most `beside` of them run at the same
    time."""

    def __init__(self, beside: int = 1) -> None:
        self._all: Dict[str, Case] = {}
        self._beside = beside

    def case(self, title: str) -> Callable[[Case], Case]:
        """Makes a function a case."""

        def add(case: Case) -> Case:
            self._all[title] = case
            return case

        return add

    def run_case(self, program: str, title: str) -> Tuple[str, str]:
        """Runs a case; returns its title and an error text."""
        with tempfile.TemporaryDirectory() as folder:
            try:
                self._all[title](program, pathlib.Path(folder))
            # an exception counts as a failure, and the other cases run
            except Exception as wrong:
                return title, f"{type(wrong).__name__}: {str(wrong)[-600:]}"
        return title, ""

    def command(self, usage: str, argv: Sequence[str]) -> int:
        """Tries the cases whose titles have a text, if one is given, on a program.
        Gives the exit status."""
        if len(argv) not in (1, 2) or argv[0] in ("-h", "--help"):
            print(usage.strip())
            return 2
        program = str(pathlib.Path(argv[0]).resolve())
        raise_descriptors()
        chosen = [title for title in self._all if len(argv) == 1 or argv[1] in title]
        failure_count = 0
        with concurrent.futures.ThreadPoolExecutor(self._beside) as pool:
            for title, wrong in pool.map(
                lambda title: self.run_case(program, title), chosen
            ):
                failure_count += bool(wrong)
                print(
                    f"{'FAILED' if wrong else 'ok'}: {title}{': ' * bool(wrong)}{wrong}",
                    flush=True,
                )
        return report_counts(len(chosen) - failure_count, failure_count)
