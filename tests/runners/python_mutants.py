"""Tries whether the nearest tests find mistakes in the Python that publishes results:
tables, verdicts, schedules, leagues and statistics.

    python3 -m tests.runners.python_mutants [NUMBER ..]

Each mutant of MUTANTS is one change to one file, in a copy of the repository's Python,
and the tests that stand nearest are run on it, by Debian's Python: they must fail. It
first runs all of these tests on the copy as it is: they must pass. It is for trying by
hand, not for the gate. The last line reads `N passed, M failed`: a mutant that is not
found has failed, and the exit status is 1 then.
"""
import pathlib
import re
import shutil
import subprocess
import sys
import tempfile
from typing import List, NamedTuple

from tests.support.counts import report_counts

TOP = pathlib.Path(__file__).resolve().parents[2]
DEBIANS_PYTHON = "/usr/bin/python3"
FOLDERS = ("arena_lab", "examples", "tests", "tools", "bench", "experiments", "docs")
# a loop without an end is a mistake that was found
SECONDS = 300


class Mutant(NamedTuple):
    """A mutation of a file, and the tests that must detect it. The text to replace
    occurs once, regardless of line breaks."""

    file: str
    before: str
    after: str
    tests: str

    def places(self, text: str) -> List["re.Match[str]"]:
        words = re.findall(r"\w+|[^\w\s]", self.before)
        return [*re.finditer(r"\s*".join(map(re.escape, words)), text)]


MODEL = "tests.lab.rules.test_model"
MATCHES = "tests.lab.play.test_schedulers"
LEAGUE = "tests.lab.course.test_league"
SWEEP = "tests.lab.sweep.test_sweep"
MUTANTS = (
    Mutant(
        "arena_lab/rules/model.py",
        '("solved", "guess", "unfinished",',
        '("solved", "unfinished", "guess",',
        MODEL,
    ),
    Mutant("arena_lab/rules/model.py", '"silent", "wrong"', '"wrong", "silent"', MODEL),
    Mutant(
        "arena_lab/rules/model.py",
        "verdict.moves, verdict.lost, team",
        "verdict.lost, verdict.moves, team",
        MODEL,
    ),
    Mutant(
        "arena_lab/rules/model.py",
        'return f"guess {missing_nodes[0]}"',
        'return f"guess {missing_nodes[-1]}"',
        MODEL,
    ),
    Mutant(
        "arena_lab/rules/model.py",
        "agent.standing == PRESENT for agent",
        "agent.standing == AWAY for agent",
        MODEL,
    ),
    Mutant(
        "arena_lab/rules/model.py",
        "not accusations or not holes_accused",
        "not holes_accused",
        MODEL,
    ),
    Mutant(
        "arena_lab/rules/printed.py",
        "enumerate(ranking, 1)",
        "enumerate(ranking)",
        "tests.test_bench",
    ),
    Mutant(
        "arena_lab/rules/printed.py",
        "sorted(rows, key=lambda row: rank(row[1], row[0]))",
        "list(rows)",
        "tests.test_bench",
    ),
    Mutant(
        "arena_lab/pages/screen.py",
        "return (len(RANKS),)",
        "return (-1,)",
        "tests.lab.pages.test_screen",
    ),
    Mutant(
        "arena_lab/pages/contest_pages.py",
        "(len(RANKS), 0, 0, row.team)",
        "(0, 0, 0, row.team)",
        "tests.integration.pages.test_contest_pages",
    ),
    Mutant(
        "arena_lab/play/schedulers.py",
        "paces.setdefault((agent.node, agent.port), rng.choice(PACES))",
        "rng.choice(PACES)",
        MATCHES,
    ),
    Mutant(
        "arena_lab/play/schedulers.py",
        "if choice.do != ARRIVE:\n            return 1",
        "if choice.do == ARRIVE:\n            return 1",
        MATCHES,
    ),
    Mutant(
        "arena_lab/rules/networks.py",
        "(one_node, other_node), (other_node, one_node)",
        "(one_node, other_node)",
        "tests.lab.rules.test_networks",
    ),
    Mutant(
        "arena_lab/rules/networks.py",
        "for v in path[:-1] + path[1:]:",
        "for v in path[:-1]:",
        "tests.lab.rules.test_networks",
    ),
    Mutant(
        "arena_lab/course/league.py",
        "return -self.solved, self.moves, self.lost",
        "return -self.solved, self.lost, " "self.moves",
        LEAGUE,
    ),
    Mutant(
        "arena_lab/course/league.py",
        "return -self.solved, self.moves, self.lost",
        "return -self.solved, self.moves",
        LEAGUE,
    ),
    Mutant(
        "arena_lab/course/league.py",
        'sum(int(row["lost"]) for row in solved_rows)',
        'sum(int(row["lost"]) for row in team_rows)',
        LEAGUE,
    ),
    Mutant(
        "arena_lab/course/league.py",
        "place=1 + ranks.index(standing.rank())",
        "place=ranks.index(standing.rank())",
        LEAGUE,
    ),
    Mutant("arena_lab/sweep/statistic.py", "/ math.sqrt(count)", "/ count", SWEEP),
    Mutant(
        "arena_lab/sweep/statistic.py",
        'method="inclusive"',
        'method="exclusive"',
        SWEEP,
    ),
    Mutant(
        "arena_lab/sweep/report.py",
        'max(rows, key=lambda row: int(row["moves"]))',
        "max(rows, key=lambda row: " 'row["moves"])',
        SWEEP,
    ),
    Mutant(
        "arena_lab/sweep/report.py",
        'row["outcome"] == "solved" and not row["fault"]',
        'row["outcome"] == "solved"',
        SWEEP,
    ),
    Mutant(
        "arena_lab/sweep/tables.py",
        "or cells[columns.index(COLUMNS[CHECK])] != check_of(cells, columns)",
        "",
        SWEEP,
    ),
)


def run(folder: pathlib.Path, tests: List[str]) -> bool:
    """Returns whether these tests pass."""
    words = [DEBIANS_PYTHON, "-m", "unittest", "-f", *tests]
    try:
        result = subprocess.run(
            words,
            cwd=folder,
            stdout=subprocess.DEVNULL,
            stderr=subprocess.DEVNULL,
            timeout=SECONDS,
        )
    except subprocess.TimeoutExpired:
        return False
    return result.returncode == 0


def is_found(folder: pathlib.Path, mutant: Mutant) -> bool:
    """Returns whether the nearest tests fail on a mutant."""
    path = folder / mutant.file
    text = path.read_text(encoding="utf-8")
    places = mutant.places(text)
    if len(places) != 1:
        sys.exit(
            f"{mutant.file}: `{mutant.before}` stands there {len(places)} times: name another text"
        )
    path.write_text(
        text[: places[0].start()] + mutant.after + text[places[0].end() :],
        encoding="utf-8",
    )
    try:
        return not run(folder, [mutant.tests])
    finally:
        path.write_text(text, encoding="utf-8")


def main(arguments: List[str]) -> int:
    if any(not word.isdecimal() or int(word) >= len(MUTANTS) for word in arguments):
        print(__doc__.strip())
        return 0 if arguments in (["-h"], ["--help"]) else 2
    chosen = [int(word) for word in arguments] or list(range(len(MUTANTS)))
    with tempfile.TemporaryDirectory() as name:
        folder = pathlib.Path(name)
        remaining = 0
        for it in FOLDERS:
            shutil.copytree(
                TOP / it,
                folder / it,
                ignore=shutil.ignore_patterns("__pycache__", "out"),
            )
        if not run(folder, sorted({MUTANTS[number].tests for number in chosen})):
            sys.exit("the tests fail on the files as they are: mend that first")
        for number in chosen:
            mutant = MUTANTS[number]
            result = is_found(folder, mutant)
            remaining += not result
            text = "found" if result else "NOT FOUND"
            view = mutant.after.strip() or mutant.before
            print(f"{number} {text}: {mutant.file}: {view}", flush=True)
    return report_counts(len(chosen) - remaining, remaining)


if __name__ == "__main__":
    sys.exit(main(sys.argv[1:]))
