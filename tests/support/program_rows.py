"""Rows of text that play the program: how they are read, and how they are played.

A file of rows, tests/program/*.rows, begins with lines that begin with #, which say
what it shows. Rows are parted by empty lines. A row has a title and steps, and a step
begins with one of these lines:

    $ WORDS   runs the program with these words, which are parted and quoted as in a shell
    @ NAME    writes a file
    = NAME    reads a file
    % NAME    writes to a file what the last run printed
    / NAME    makes a folder

Then come the lines of the step:

    > TEXT    a line of the script, or of the file that is written
    < TEXT    a line of what is printed, or stands in the file that is read
    ! TEXT    a line of what is told as a fault
    ? NUMBER  the exit status, which is else 0

`>~`, `<~` and `!~` are the same without a line feed behind the text, `>x` gives bytes
in hexadecimal digits. A `¶` in one of these lines stands for a line feed. A line `+`
goes on with the line before it. If the title of the first row of a file begins with
`Before each row`, its steps are carried out before those of each other row.

A row may have tables. `* NAME => NAME` names the columns of one, and each line `| VALUE
=> VALUE` makes a row of its own, in which the values stand for the names. Of several
tables each line goes with each line of the others; values may hold names of tables that
stand before theirs.

A row whose second line is `~ SOURCE TARGET` is a table of changes, for `check
cup.toml`. In a line `OLD => NEW => LINE` the first OLD in the file SOURCE, as it is
written before each row, becomes NEW, and the file TARGET is written so. LINE is what is
printed, if it begins with `match`, or told, with the exit status 6 if it ends with `:
read`, and else 3. `right` stands for the line of the match of a file in which nothing is
changed. Behind each fault but `text` a line of what helps is told, any that begins with
two spaces. Notes on a tournament, of ignored keys, the schedule and links, are passed
over where a row wants none.
"""
import functools
import itertools
import pathlib
import re
import shlex
import subprocess
import sys
import tempfile
import unittest
from typing import (
    Any,
    Callable,
    Dict,
    Iterator,
    List,
    NamedTuple,
    Sequence,
    Tuple,
    Union,
)

from arena_lab.support.built import PORT_LINE, UNPROVED_LINE, warning_of
from tests.support.counts import FailedCheckError, require
from tests.support.servers import Run, without_notes, without_warning

PATIENCE = 60
# how much more time a program with AddressSanitizer may take
SLOWNESS = 10
# longest part of an unexpected line to print
SHOWN = 160
HEADS = "$@=%/"
FIRST = "Before each row"
ARROW = " => "
RIGHT = "match 0 red nodes 3 links 3 agents 2"
DONE = 0
REFUSED_TEXT = 3
FAILED_STREAM = 6
# a line of what helps, whatever it says
SOME_HELP = b"  ..\n"

Word = Union[str, bytes]


# runs a command that may map this many bytes
CRAMPED = """import os, resource, sys
resource.setrlimit(resource.RLIMIT_AS, (int(sys.argv[1]),) * 2)
os.execv(sys.argv[2], sys.argv[2:])"""


@functools.lru_cache(maxsize=None)
def has_sanitizer(program: str) -> bool:
    """Returns whether a program is one without a proof, which is compiled with
    AddressSanitizer."""
    return warning_of(pathlib.Path(program)) == UNPROVED_LINE


class Stage:
    """A program in a folder of its own."""

    def __init__(self, program: str, folder: pathlib.Path) -> None:
        self.program = str(pathlib.Path(program).resolve())
        self.folder = folder
        self.is_slow = has_sanitizer(self.program)
        self.patience = PATIENCE * (SLOWNESS if self.is_slow else 1)

    def run(
        self,
        words: Sequence[Word],
        script: bytes = b"",
        front: Sequence[str] = (),
        wants_notes: bool = False,
        **streams: Any,
    ) -> Run:
        """Runs the program on a script, optionally under another command and with other
        streams. Notes on a tournament are removed unless `wants_notes`."""
        plain = {"stdout": subprocess.PIPE, "stderr": subprocess.PIPE}
        try:
            result = subprocess.run(
                [*front, self.program, *words],
                cwd=self.folder,
                input=script,
                timeout=self.patience,
                **{**plain, **streams},
            )
        except subprocess.TimeoutExpired:
            raise FailedCheckError(
                f"it did not end in {self.patience} seconds"
            ) from None
        errors = without_warning(result.stderr or b"")
        return Run(
            result.returncode,
            result.stdout or b"",
            errors if wants_notes else without_notes(errors, words),
        )

    def memory_limit(self, size: int) -> List[str]:
        """Returns the words before a command by which it may map so many bytes."""
        self.skip_with_sanitizer("maps more memory by itself")
        if warning_of(pathlib.Path(self.program)) == PORT_LINE:
            raise unittest.SkipTest("a program by rustc aborts without memory")
        return [sys.executable, "-c", CRAMPED, str(size)]

    def skip_with_sanitizer(self, reason: str) -> None:
        """Skips the case for a reason if the program has AddressSanitizer."""
        if self.is_slow:
            raise unittest.SkipTest(f"a program with AddressSanitizer {reason}")


class Step(NamedTuple):
    """One step of a row: action, words, input, expected output."""

    mark: str
    rest: str
    stdin: bytes
    expected: bytes
    stderr: bytes
    status: int


class Row(NamedTuple):
    title: str
    steps: List[Step]


def difference(what: str, expectation: bytes, outcome: bytes) -> None:
    """Tells the first line that is another."""
    if expectation == outcome:
        return
    pairs = itertools.zip_longest(
        expectation.splitlines(True), outcome.splitlines(True)
    )
    for number, (line, second) in enumerate(pairs, 1):
        require(
            line == second,
            f"{what}, line {number}: wanted {visible_line(line)}, came {visible_line(second)}",
        )


def visible_line(line: Union[bytes, None]) -> str:
    """A line in one line, with `¶` for its line feed."""
    if line is None:
        return "nothing"
    text = line.decode(errors="backslashreplace").replace("\n", "¶")
    if len(text) > SHOWN:
        text = f"{text[:SHOWN]}.. ({len(line)} bytes)"
    return f"`{text}`"


def expect(run: Run, output: bytes, text: bytes = b"", status: int = DONE) -> None:
    """What a run told and printed, and its status, are these."""
    difference("told", with_help(text, run.stderr), run.stderr)
    difference("printed", output, run.stdout)
    require(run.status == status, f"exit status: wanted {status}, came {run.status}")


def with_help(expectation: bytes, outcome: bytes) -> bytes:
    """What is wanted, with the lines of help that came for those that may say
    anything."""
    pairs = itertools.zip_longest(
        expectation.splitlines(True), outcome.splitlines(True), fillvalue=b""
    )
    return b"".join(
        pair if line == SOME_HELP and pair.startswith(b"  ") else line
        for line, pair in pairs
    )


def play(row: Row, stage: Stage) -> None:
    """Carries out the steps of a row."""
    output = b""
    for step in row.steps:
        try:
            output = do(step, stage, output)
        except (OSError, FailedCheckError) as error:
            raise FailedCheckError(f"{step.mark} {step.rest}: {error}") from None


def do(step: Step, stage: Stage, output: bytes) -> bytes:
    """Carries out a step, and gives what the last run printed."""
    folder = stage.folder / step.rest
    if step.mark == "$":
        words = shlex.split(step.rest)
        wants_notes = without_notes(step.stderr, words) != step.stderr
        result = stage.run(words, step.stdin, wants_notes=wants_notes)
        expect(result, step.expected, step.stderr, step.status)
        return result.stdout
    if step.mark == "@":
        folder.write_bytes(step.stdin)
    elif step.mark == "%":
        folder.write_bytes(output)
    elif step.mark == "/":
        folder.mkdir()
    else:
        difference("it", step.expected, folder.read_bytes())
    return output


def bytes_of(mark: str, rest: str) -> bytes:
    """The bytes of a line of a step."""
    if mark == ">x":
        return bytes.fromhex(rest)
    return rest.replace("¶", "\n").encode() + (b"" if mark.endswith("~") else b"\n")


def step_of(lines: Sequence[str]) -> Step:
    """The step that begins with the first of these lines."""
    texts = {">": b"", "<": b"", "!": b""}
    status = DONE
    head, _, rest = lines[0].partition(" ")
    for line in lines[1:]:
        mark, _, text = line.partition(" ")
        if mark == "?":
            status = int(text)
        elif mark in (">x", *texts, *(f"{name}~" for name in texts)):
            texts[mark[0]] += bytes_of(mark, text)
        else:
            raise ValueError(f"no mark: {line}")
    return Step(head, rest, texts[">"], texts["<"], texts["!"], status)


def steps_of(lines: Sequence[str]) -> List[Step]:
    """The steps of a row without tables."""
    heads = [
        index
        for index, line in enumerate(lines)
        if line.partition(" ")[0] in tuple(HEADS)
    ]
    if lines and heads[:1] != [0]:
        raise ValueError(f"no step: {lines[0]}")
    return [
        step_of(lines[position:end])
        for position, end in zip(heads, [*heads[1:], len(lines)])
    ]


def tables_of(lines: Sequence[str]) -> List[List[Dict[str, str]]]:
    """The tables of a row: of each line the values by their names."""
    tables: List[List[Dict[str, str]]] = []
    names: List[str] = []
    for line in lines:
        mark, _, text = line.partition(" ")
        if mark == "*":
            names = text.split(ARROW)
            tables.append([])
        elif mark == "|":
            values = text.split(ARROW)
            if len(values) != len(names):
                raise ValueError(f"no line of the table: {line}")
            tables[-1].append(dict(zip(names, values)))
    return tables


def fill_values(line: str, values: Sequence[Dict[str, str]]) -> str:
    """A line with values for names, those of the last table first."""
    for table in reversed(values):
        for name, value in table.items():
            line = line.replace(name, value)
    return line


def spread(lines: Sequence[str]) -> Iterator[Tuple[str, List[Step]]]:
    """The title and the steps of a row, or of each row that its tables make."""
    plain = [line for line in lines if line.partition(" ")[0] not in ("*", "|")]
    for values in itertools.product(*tables_of(lines)):
        title, *rest = (fill_values(line, values) for line in plain)
        yield title, steps_of(rest)


def replace_once(text: str, old: str, new: str) -> str:
    """A text in which the first of a text is another."""
    before, result, after = text.partition(old)
    if not result:
        raise ValueError(f"nothing to change: {old}")
    return before + new + after


def checks(
    files: Dict[str, bytes], lines: Sequence[str]
) -> Iterator[Tuple[str, List[Step]]]:
    """The title and the steps for each line of a table of changes."""
    source, target = lines[1].split()[1:]
    for line in lines[2:]:
        old, new, message = (text.replace("¶", "\n") for text in line.split(ARROW))
        text = replace_once(files[source].decode(), old, new)
        message = f"{RIGHT if message == 'right' else message}\n"
        status = (
            DONE
            if message.startswith("match")
            else FAILED_STREAM
            if message.endswith(": read\n")
            else REFUSED_TEXT
        )
        output, fault = (
            (message, "") if status == DONE else ("", message + help_behind(message))
        )
        yield f"{lines[0]} {line}", [
            Step("@", target, text.encode(), b"", b"", DONE),
            Step("$", "check cup.toml", b"", output.encode(), fault.encode(), status),
        ]


def help_behind(text: str) -> str:
    """Returns the help line expected after the fault of a file, or ""."""
    return "" if text.endswith(": text\n") else SOME_HELP.decode()


def rows_of(text: str) -> List[Row]:
    """The rows of a text."""
    lines = "\n".join(line for line in text.split("\n") if not line.startswith("#"))
    parts = [
        part.split("\n")
        for part in re.split("\n{2,}", lines.replace("\n+ ", "").strip("\n"))
    ]
    first: List[Step] = []
    rows = []
    for part in parts:
        if part[0].startswith(FIRST):
            first = steps_of(part[1:])
            continue
        is_table = len(part) > 1 and part[1].startswith("~ ")
        files = {step.rest: step.stdin for step in first if step.mark == "@"}
        for title, steps in checks(files, part) if is_table else spread(part):
            rows.append(Row(title, first + steps))
    return rows


def fault_of(program: str, trial: Callable[[Stage], None]) -> str:
    """What a trial of the program in a fresh folder finds wrong, or nothing."""
    with tempfile.TemporaryDirectory() as folder:
        try:
            trial(Stage(program, pathlib.Path(folder)))
        except unittest.SkipTest:
            raise
        except Exception as error:
            return (
                str(error)
                if isinstance(error, (FailedCheckError, OSError))
                else f"{type(error).__name__}: {error}"
            )
    return ""
