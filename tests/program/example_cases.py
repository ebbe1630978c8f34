"""Cases that play the commands of examples/, and compare what they print and write."""
import functools
import shutil
from typing import NamedTuple

from tests.program.program_cases import CASES, REFUSED_MATCH, TOP
from tests.support.program_rows import DONE, Stage, difference, expect


class Example(NamedTuple):
    """A command of examples/: its words and script; its standard output, as a file or as
    the text itself; its faults; and the replay that it writes."""

    words: str
    script: str = ""
    stdout: str = ""
    stderr: str = ""
    replay: str = ""


TEAMS = "red=examples/first0.jsonl blue=examples/guess0.jsonl green=examples/triangle0.jsonl"
EXAMPLES = [
    Example("check examples/first.toml", stdout="first.checked"),
    Example(
        "rehearse examples/first.toml --replay examples/first",
        "first.script",
        "first.printed",
        replay="first0.jsonl",
    ),
    Example(
        "rehearse --replay examples/guess",
        "guess.script",
        "guess.printed",
        replay="guess0.jsonl",
    ),
    Example(
        "rehearse --replay examples/triangle",
        "triangle.script",
        "triangle.printed",
        replay="triangle0.jsonl",
    ),
    Example("judge examples/first0.jsonl", stdout="solved moves 13 lost 1\n"),
    Example("judge examples/guess0.jsonl", stdout="guess 1 moves 0 lost 0\n"),
    Example("judge examples/triangle0.jsonl", stdout="silent moves 1 lost 0\n"),
    Example(
        "judge examples/appeal0.jsonl --turns examples/appeal0.turns --tournament examples/appeal.toml --match 0",
        stdout="solved moves 25 lost 1\n",
    ),
    Example(f"table {TEAMS}", stdout="table.printed"),
    Example("explain examples/first0.jsonl 1", stdout="first.explained"),
    Example("twin examples/first0.jsonl 5", stderr="twin: same\n"),
    Example("twin examples/first0.jsonl 6", stderr="twin: reached 20\n"),
    Example("twin examples/guess0.jsonl 1", stdout="guess.twin"),
    Example("judge examples/guess.twin", stdout="wrong moves 0 lost 0\n"),
    Example(
        "check examples/version1.toml", stdout="match 0 red nodes 3 links 3 agents 2\n"
    ),
    Example(
        "explore examples/version1.toml 0", "triangle.answers", "triangle.explored"
    ),
    Example(
        f"attest examples/attested0.jsonl --module {TOP}/examples/agents/wasm/ring.wasm:8",
        stdout="attested.printed",
    ),
]


def plays_example(example: Example, stage: Stage) -> None:
    """Plays an example on a copy of the folder, from which the file that it writes is
    taken."""
    folder = stage.folder / "examples"
    shutil.copytree(
        TOP / "examples", folder, ignore=shutil.ignore_patterns("agents", "__pycache__")
    )
    script = (folder / example.script).read_bytes() if example.script else b""
    output = folder / example.stdout
    expectation = (
        output.read_bytes()
        if example.stdout and output.is_file()
        else example.stdout.encode()
    )
    if example.replay:
        (folder / example.replay).unlink()
    expect(
        stage.run(example.words.split(), script),
        expectation,
        example.stderr.encode(),
        REFUSED_MATCH if example.stderr else DONE,
    )
    if example.replay:
        expectation = (TOP / "examples" / example.replay).read_bytes()
        difference(example.replay, expectation, (folder / example.replay).read_bytes())


for each in EXAMPLES:
    CASES[f"arena {each.words}"] = functools.partial(plays_example, each)
