"""Cases of `arena rehearse --interactive`: what a batch prints comes line by line, each
answer before more is sent."""
import functools
import os
import subprocess
import sys
import threading
from typing import List, Sequence

from arena_lab.rules.limits import MAX_TEXT
from tests.program.program_cases import (
    CASES,
    ENTER,
    HERE,
    LOOK,
    TOP,
    case,
    drawn_script,
)
from tests.support.counts import require
from tests.support.program_rows import (
    DONE,
    REFUSED_TEXT,
    Stage,
    FailedCheckError,
    difference,
    expect,
)

INTERACTIVE = ["rehearse", "--interactive"]


def without_ends(output: bytes) -> bytes:
    """What is printed, without the empty lines that end the answers."""
    return b"".join(line for line in output.splitlines(True) if line != b"\n")


def lockstep(stage: Stage, lines: Sequence[str]) -> List[bytes]:
    """Sends each line once the answer to the one before it has ended: gives the
    answers. A program that keeps an answer back until more is sent is stopped, and the
    read ends."""
    player = subprocess.Popen(
        [stage.program, *INTERACTIVE],
        cwd=stage.folder,
        stdin=subprocess.PIPE,
        stdout=subprocess.PIPE,
    )
    patience = threading.Timer(stage.patience, player.kill)
    patience.start()
    answers = []
    try:
        for line in lines:
            player.stdin.write(f"{line}\n".encode())
            player.stdin.flush()
            answers.append(b"".join(iter(player.stdout.readline, b"\n")))
            if player.poll() is not None:
                raise FailedCheckError(f"no answer came to {line[:60]}")
        player.stdin.close()
        if player.wait(stage.patience) != DONE or player.stdout.read():
            raise FailedCheckError(
                f"it ended with {player.returncode}, or printed behind the last answer"
            )
    finally:
        patience.cancel()
        player.kill()
        player.wait()
        player.stdout.close()
    return answers


def answers_at_once(seeds: Sequence[int], stage: Stage) -> None:
    """Scripts drawn from these seeds are answered in lockstep, in one piece and in one
    batch by the same texts."""
    for seed in seeds:
        script = drawn_script(seed)[0]
        batch = stage.run(["rehearse"], script.encode())
        expect(batch, batch.stdout)
        piece = stage.run(INTERACTIVE, script.encode())
        expect(piece, piece.stdout)
        difference(
            f"seed {seed}, in one piece", batch.stdout, without_ends(piece.stdout)
        )
        answers = lockstep(stage, script.splitlines())
        difference(
            f"seed {seed}, in lockstep",
            piece.stdout,
            b"".join(answer + b"\n" for answer in answers),
        )


for first_seed in range(0, 40, 10):
    CASES[
        f"an interactive rehearsal answers each line at once, seeds from {first_seed}"
    ] = functools.partial(answers_at_once, range(first_seed, first_seed + 10))


@case("an interactive script may be longer than a batch, its lines not")
def longest_line(stage: Stage) -> None:
    comment = "#" * MAX_TEXT + "\n"
    script = f"0 {ENTER}\n{comment}{comment}0 {LOOK}\n"
    expect(
        stage.run(INTERACTIVE, script.encode()),
        (HERE + "\n\n\n" + HERE + "\n").encode(),
    )
    refusal = f"0 {ENTER}\n#{comment}0 {LOOK}\n"
    for text in (
        refusal,
        refusal[: -len(LOOK) - 4],
    ):  # with and without the line feed behind it
        expect(
            stage.run(INTERACTIVE, text.encode()),
            (HERE + "\n").encode(),
            b"script: line 2\n",
            REFUSED_TEXT,
        )


@case(
    "an interactive rehearsal that is refused passes on what it answered, and writes no replay"
)
def refused_line(stage: Stage) -> None:
    script = f"0 {ENTER}\nclose 0\njump\n0 {LOOK}\n"
    expect(
        stage.run([*INTERACTIVE, "--replay", "ended"], script.encode()),
        (HERE + "\n\n").encode(),
        b"script: line 3\n",
        REFUSED_TEXT,
    )
    require(not list(stage.folder.glob("ended*")), "a replay was written")


@case("the adversary of the examples delivers the agent that departed last")
def adversary(stage: Stage) -> None:
    result = subprocess.run(
        [sys.executable, TOP / "examples" / "last_departed.py", stage.program],
        timeout=stage.patience,
        stdout=subprocess.PIPE,
        env={**os.environ, "PYTHONDONTWRITEBYTECODE": "1"},
    )
    difference(
        "last_departed.py",
        (TOP / "examples" / "last_departed.printed").read_bytes(),
        result.stdout,
    )
    require(not result.returncode, f"it ended with {result.returncode}")
