"""The commands of the program on the examples, and what came of running them: what
failing_machine.py and refusals.py share."""
import os
import pathlib
import re
import shutil
import subprocess
from typing import Any, Callable, Counter, List, NamedTuple, Optional, Sequence, Set

from tests.support.program_rows import DONE, FAILED_STREAM, REFUSED_TEXT
from tests.support.servers import without_notes

TOP = pathlib.Path(__file__).resolve().parents[2]


__all__ = [
    "ALL_HOLES",
    "COMMANDS",
    "Command",
    "DONE",
    "FAILED_STREAM",
    "Lab",
    "NO_MEMORY",
    "NO_THREADS",
    "PATIENCE",
    "REFUSED_TEXT",
    "Run",
    "SERVE",
    "TOP",
    "WHOLE_OF_PART",
    "command_named",
    "end_of",
]

NO_MEMORY = 5
NO_THREADS = 7
# seconds within which a run must end
PATIENCE = 60


class Command(NamedTuple):
    """The words of a command, with what stands on its standard input, the file that it
    reads first, how its faults name its standard input, and what else they may name."""

    name: str
    words: Sequence[str]
    script: str
    reads: Optional[str]
    stdin: str = "script"
    beside: Sequence[str] = ()


# a replay of the examples without its last two lines, which each folder gets: what a
# server that was killed leaves
PART = "examples/first0.jsonl.part"
WHOLE_OF_PART = "examples/first0.jsonl"
# a contest of one match by its tournament and its prefix, and the files of that match
CONTEST = ["examples/appeal.toml", "--replay", "examples/appeal"]
OF_CONTEST = ["examples/appeal0.jsonl", "examples/appeal0.jsonl.part"]
TRIES = [
    "explore",
    "examples/version1.toml",
    "0",
    "--max-states",
    "10000000",
    "--spurious-wakeups",
    "2",
]
MODULE = "examples/agents/wasm/ring.wasm"
DRAWS = [
    "--draws",
    "20",
    "--seed",
    "5",
    "--scheduler",
    "slow-agents",
    "--objective",
    "moves",
]
# the name of the command whose searches share the processors
ALL_HOLES = "all holes"
# each order of the program with each of its options, but `serve`, for which the tools
# have runs of their own: tests/test_commands.py compares
COMMANDS = [
    Command("check", ["check", "examples/first.toml"], "", "examples/first.toml"),
    Command(
        "rehearse",
        ["rehearse", "examples/first.toml", "--replay", "kept"],
        "examples/first.script",
        "examples/first.toml",
    ),
    Command(
        "interactive",
        ["rehearse", "examples/first.toml", "--interactive", "--replay", "kept"],
        "examples/first.script",
        "examples/first.toml",
    ),
    Command("built-in", ["rehearse"], "examples/triangle.script", None),
    Command("judge", ["judge", "examples/first0.jsonl"], "", "examples/first0.jsonl"),
    Command(
        "table",
        ["table", "red=examples/first0.jsonl", "blue=examples/guess0.jsonl"],
        "",
        "examples/first0.jsonl",
    ),
    Command(
        "explain",
        ["explain", "examples/first0.jsonl", "1"],
        "",
        "examples/first0.jsonl",
    ),
    Command(
        "twin", ["twin", "examples/guess0.jsonl", "1"], "", "examples/guess0.jsonl"
    ),
    Command(
        "appeal",
        [
            "judge",
            "examples/appeal0.jsonl",
            "--turns",
            "examples/appeal0.turns",
            "--tournament",
            "examples/appeal.toml",
            "--match",
            "0",
        ],
        "",
        "examples/appeal0.jsonl",
    ),
    Command("recover", ["recover", PART], "", PART),
    Command(
        "contest table",
        ["table", *CONTEST],
        "",
        "examples/appeal.toml",
        beside=OF_CONTEST,
    ),
    Command(
        "contest recover",
        ["recover", *CONTEST],
        "",
        "examples/appeal.toml",
        beside=OF_CONTEST,
    ),
    Command(
        "explore", TRIES, "examples/triangle.answers", "examples/version1.toml", "host"
    ),
    Command(
        "draw",
        [*TRIES, *DRAWS],
        "examples/triangle.answers",
        "examples/version1.toml",
        "host",
    ),
    Command(
        "module",
        ["explore", "examples/appeal.toml", "0", "--module", f"{MODULE}:8"],
        "",
        "examples/appeal.toml",
        beside=[MODULE],
    ),
    Command(
        "attest",
        [
            "attest",
            "examples/attested0.jsonl",
            "--module",
            f"{MODULE}:8",
            "--spurious-wakeups",
            "2",
        ],
        "",
        "examples/attested0.jsonl",
        beside=[MODULE],
    ),
    Command(
        ALL_HOLES,
        [
            "explore",
            "examples/appeal.toml",
            "0",
            "--module",
            f"{MODULE}:8",
            "--all-holes",
        ],
        "",
        "examples/appeal.toml",
        beside=[MODULE],
    ),
]
SERVE = "serve"


def command_named(name: str) -> Command:
    return next(command for command in COMMANDS if command.name == name)


class Run(NamedTuple):
    """What came of a run."""

    status: int
    stdout: bytes
    stderr: str


def end_of(child: subprocess.Popen) -> Run:
    """What came of a child that must end by itself."""
    try:
        output, errors = child.communicate(timeout=PATIENCE)
    except subprocess.TimeoutExpired:
        child.kill()
        child.communicate()
        return Run(-1, b"", "it did not end")
    return Run(
        child.returncode,
        output or b"",
        without_help(without_notes(errors or b"", child.args).decode(errors="replace")),
    )


def without_help(text: str) -> str:
    """What is told without the lines of what helps, which begin with two spaces."""
    return re.sub(r"(?m)^  .*\n?", "", text)


class Lab:
    """The program in its own folder with the examples, and the findings."""

    def __init__(self, program: str, folder: pathlib.Path) -> None:
        self.program = str(pathlib.Path(program).resolve())
        self.folder = folder
        self.runs = 0
        self.faults: List[str] = []
        shutil.copytree(TOP / "examples", folder / "examples")
        lines = (folder / WHOLE_OF_PART).read_bytes().splitlines(keepends=True)
        (folder / PART).write_bytes(b"".join(lines[:-2]))
        self.whole = {command.name: self.run(command) for command in COMMANDS}

    def run(
        self,
        command: Command,
        limit: Optional[Callable[[], None]] = None,
        **streams: Any,
    ) -> Run:
        """Runs a command, with a limit that is set before it begins, and other streams
        if some are given."""
        self.runs += 1
        script = self.folder / command.script if command.script else os.devnull
        with open(script, "rb") as source:
            plain = {
                "stdin": source,
                "stdout": subprocess.PIPE,
                "stderr": subprocess.PIPE,
            }
            child = subprocess.Popen(
                [self.program, *command.words],
                cwd=self.folder,
                preexec_fn=limit,
                **{**plain, **streams},
            )
            return end_of(child)

    def expect(
        self,
        what: str,
        command: Command,
        run: Run,
        outcomes: Set[str],
        status: int,
        counts: Counter,
    ) -> None:
        """Counts a run that must end like an undisturbed one, or with one of these
        faults and this status."""
        whole = self.whole[command.name]
        if run == whole:
            counts["as ever"] += 1
        elif run.stderr in {f"{line}\n" for line in outcomes} and run.status == status:
            counts[run.stderr.strip().rpartition(": ")[2]] += 1
            if not whole.stdout.startswith(run.stdout):
                self.faults.append(f"{what}, {command.name}: another text was printed")
        else:
            self.faults.append(
                f"{what}, {command.name}: status {run.status}, `{run.stderr.strip()[:100]}`"
            )

    def part(self, trial: Callable[..., None], *args: Any) -> None:
        """Runs a part. An exception is counted as a fault of that part, and the other
        parts run."""
        try:
            trial(*args)
        except Exception as fault:
            self.faults.append(
                f"{trial.__name__.replace('_', ' ')}: {type(fault).__name__}: {fault}"
            )

    def conclude(self) -> int:
        """Prints what ended otherwise, and how many runs did; gives the exit status."""
        for fault in self.faults:
            print(f"FAILED {fault}")
        print(f"{self.runs} runs, {len(self.faults)} ended otherwise")
        return 1 if self.faults else 0

    def report(self, what: str, counts: Counter) -> None:
        print(
            f"{what}: "
            + ", ".join(f"{count} {name}" for name, count in sorted(counts.items())),
            flush=True,
        )
