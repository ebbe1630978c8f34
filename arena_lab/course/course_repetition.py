"""Repeats each agent of a graded course's solved matches once more, alone, by the
results alone."""
import pathlib
import random
import sys
from typing import Dict, List, Set

from arena_lab.course import course_files, rounds
from arena_lab.course.conditions import CourseDraws
from arena_lab.course.grading import not_counted_in
from arena_lab.course.rounds import Repeating, SolvedMatch
from arena_lab.sandbox import sandboxes
from arena_lab.sandbox.sandboxes import Isolation, SandboxOptions
from arena_lab.submissions import store
from arena_lab.sweep import grid, tables


def repeat_graded(out: pathlib.Path, workers: int, forgets: bool) -> int:
    """Repeats the course whose results a folder has; gives the exit status."""
    strongest = sandboxes.strongest()
    with tables.alone_in(out, is_there=True):
        text = grid.text_in(out / store.COURSE)
        rows = tables.rows_in(out / tables.RUNS)
        matches = rounds.solved_in(rows)
        counts = [
            sum(row["team"] == team for row in rows)
            for team in {row["team"] for row in rows}
        ]
        terms = course_files.terms_of(text, max(counts, default=0))
        draws = CourseDraws(grid.text_in(out / course_files.SECRET).strip())
        if strongest is not Isolation.ALL:
            print(
                f"arena-lab: {sandboxes.weakness()}; {strongest.value}", file=sys.stderr
            )
        plain = SandboxOptions(
            strongest, terms.tools, terms.has_proc, calls=terms.calls
        )
        with sandboxes.furnish(
            plain, terms.commands.values(), terms.packages
        ) as sandbox:
            job = Repeating(out, text, draws, sandbox, terms.limits, forgets)
            differences = rounds.repeat_agents(
                job, matches, workers, random.SystemRandom()
            )
        return report_repetitions(matches, differences, not_counted_in(out))


def report_repetitions(
    matches: List[SolvedMatch], differences: Dict[int, str], before: Set[int]
) -> int:
    """Says which matches repeat; some did not count before."""
    for name in sorted({match.team for match in matches}):
        numbers = [match.number for match in matches if match.team == name]
        print(
            f"{name}: {sum(number not in differences for number in numbers)} of {len(numbers)} solved matches repeat"
        )
    for number, difference in sorted(differences.items()):
        print(
            f"match {number}{' (as when the course was graded)' * (number in before)}: {difference}"
        )
    return 1 if set(differences) - before else 0
