"""Rehearsals that are drawn, of each number of agents, and played on the program: it
prints what tests/support/drawn_rehearsals.py says, also when it answers each line as it
comes. No call wants memory."""
import functools
from typing import Sequence

from arena_lab.rules.limits import MAX_AGENTS
from tests.program.program_cases import CASES
from tests.support.drawn_rehearsals import draw_rehearsal
from tests.support.program_rows import Stage, difference, expect

OF_A_CASE = 16


def are_played(numbers: Sequence[int], stage: Stage) -> None:
    """Plays drawn rehearsals with these numbers of agents."""
    for agents in numbers:
        rehearsal = draw_rehearsal(agents)
        for name, text in rehearsal.files.items():
            (stage.folder / name).write_text(text)
        script = "".join(f"{line}\n" for line in rehearsal.script).encode()
        result = stage.run(["rehearse", "cup.toml"], script)
        difference(f"{agents} agents, told", b"", result.stderr)
        expect(result, "".join(rehearsal.expected).encode())
        interactive = "".join(f"{text}\n" for text in rehearsal.expected).encode()
        expect(
            stage.run(["rehearse", "cup.toml", "--interactive"], script), interactive
        )


for least in range(1, MAX_AGENTS + 1, OF_A_CASE):
    CASES[
        f"drawn rehearsals of {least} agents and more are played as the rules say"
    ] = functools.partial(are_played, range(least, least + OF_A_CASE))
