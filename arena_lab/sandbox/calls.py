"""Which calls of the system programs behind walls may make, by their language:
`calls.toml` beside this file has them.

    strace -f -X raw -o TRACE PROGRAM ..
    python3 -m arena_lab.sandbox.calls LANGUAGE TRACE ..

The command says which calls of a program that was traced are refused to its language,
and what allows them. A new language begins as a list of what `every` lacks.
"""
import collections
import functools
import os
import pathlib
import re
import shlex
import sys
import tomllib
from typing import (
    Any,
    Callable,
    Counter,
    Dict,
    Iterable,
    List,
    Optional,
    Sequence,
    Set,
    Tuple,
)

TABLE = pathlib.Path(__file__).resolve().parent / "calls.toml"
# the file in which one sets what programs in sandboxes may do, as messages name it
SETTINGS = "course.toml"
# all lists together, for a program whose language is not known; the list that each
# language has too; and a program that the machine starts without an interpreter
ANY = "any"
EVERY = "every"
NATIVE = "native"
ELF = b"\x7fELF"
# mask of an int argument
INT = 0xFFFFFFFF
# a line of a trace: the process, the call, and its arguments
LINE = re.compile(r"(?:\d+ +)?(\w+)\((.*)")
# in a trace, numbers that are joined, and what stands before those of `clone`
NUMBERS = re.compile(r"[\dxa-fA-F]+(?:\|[\dxa-fA-F]+)*")
FLAGS = "flags="


@functools.lru_cache(maxsize=1)
def table() -> Dict[str, Any]:
    """The table of all calls."""
    return tomllib.loads(TABLE.read_text(encoding="utf-8"))


def languages() -> List[str]:
    """The names of languages."""
    return [*table()["languages"], ANY]


def allowed_calls(language: str) -> Set[str]:
    """The calls that a language may make whatever their arguments, and those that do
    nothing."""
    lists = (
        [table()[EVERY]]
        if language == EVERY
        else [
            table()[EVERY],
            *(
                entry
                for name, entry in table()["languages"].items()
                if language in (name, ANY)
            ),
        ]
    )
    idle = {
        call for row in table()["answers"] if row["error"] == 0 for call in row["calls"]
    }
    return {call for row in lists for call in row["calls"]} | idle


def never(call: str) -> str:
    """Why nobody may allow a call, or nothing if one may."""
    by_arguments = {row["call"] for row in table()["arguments"]}
    if call in by_arguments:
        return "it is allowed by its arguments, which stand in calls.toml"
    return next(
        (str(row["why"]) for row in table()["never"] if call in row["calls"]), ""
    )


def language_of(words: str, content_of: Callable[[str], Optional[bytes]]) -> str:
    """The language of the program that these words of a command start, as far as they
    and its file show it."""
    first = shlex.split(words)[0]
    content = content_of(first) if "/" in first else None
    if content is not None:
        if content.startswith(ELF):
            return NATIVE
        line = content[:256].partition(b"\n")[0]
        first = (
            line.split()[-1].decode(errors="replace")
            if line.startswith(b"#!") and line.split()
            else first
        )
    program_name = os.path.basename(first)
    # a shell may start programs in any language
    return next(
        (
            name
            for name, entry in table()["languages"].items()
            if program_name in entry["starts"] and name != "shell"
        ),
        ANY,
    )


def refused_calls(
    lines: Iterable[str], language: str
) -> Tuple[Counter[str], Counter[str]]:
    """Counts the system calls of a trace, and those that the language's filter refuses,
    with their arguments."""
    call_counts: Counter[str] = collections.Counter()
    refusal_counts: Counter[str] = collections.Counter()
    allowed = allowed_calls(language)
    for line in lines:
        match = LINE.match(line)
        if match is None:
            continue
        call = match[1]
        rows = [row for row in table()["arguments"] if row["call"] == match[1]]
        call_counts[call] += 1
        numbers = numbers_in(call, match[2])
        if rows and not any(is_allowed(row, numbers) for row in rows):
            places = sorted(
                {
                    int(index)
                    for row in rows
                    for condition in row["rows"]
                    for index in condition
                }
            )
            refusal_counts[
                f"{call} {' '.join(hex(numbers.get(index, 0)) for index in places)}"
            ] += 1
        elif not rows and call not in allowed:
            refusal_counts[call] += 1
    return call_counts, refusal_counts


def is_allowed(row: Dict[str, Any], numbers: Dict[int, int]) -> bool:
    """Returns whether a row allows a call that has these numbers as arguments."""
    mask = row.get("mask", INT)
    return "error" not in row and any(
        all(
            numbers.get(int(index), -1) & mask in values
            for index, values in condition.items()
        )
        for condition in row["rows"]
    )


def numbers_in(call: str, arguments: str) -> Dict[int, int]:
    """The arguments of a call that a trace shows as numbers, by their places."""
    if call == "clone":
        arguments = arguments.partition(FLAGS)[2]
    numbers = {
        index: number_in(part) for index, part in enumerate(arguments.split(", "))
    }
    return {index: number for index, number in numbers.items() if number is not None}


def number_in(text: str) -> Optional[int]:
    """Parses the leading number of an argument in a trace, or returns None."""
    match = NUMBERS.match(text)
    try:
        return (
            None
            if match is None
            else functools.reduce(
                lambda flags, part: flags | int(part, 0), match[0].split("|"), 0
            )
        )
    except ValueError:
        return None


def report_trace(language: str, lines: Iterable[str]) -> str:
    """Returns the report on a trace."""
    call_counts, refusal_counts = refused_calls(lines, language)
    report = [
        f"{language}: of {len(call_counts)} calls that were traced {len(refusal_counts)} are refused"
    ]
    free = [
        call for call in sorted(refusal_counts) if " " not in call and not never(call)
    ]
    for call, count in sorted(refusal_counts.items()):
        why = "by its arguments" if " " in call else never(call) or "it is in no list"
        report.append(f"{count:7}  {call}: {why}")
    if free:
        report.append(
            f"in {SETTINGS} this allows what is in no list: calls = {str(free).replace(chr(39), chr(34))}"
        )
    return "\n".join(report)


def main(argv: Sequence[str]) -> int:
    if len(argv) < 2 or argv[0] not in (*languages(), EVERY):
        print(
            f"{(__doc__ or '').strip()}\n\nLanguages: {', '.join([*languages(), EVERY])}"
        )
        return 0 if argv[:1] in (["-h"], ["--help"]) else 2
    lines: List[str] = []
    for name in argv[1:]:
        try:
            lines += (
                pathlib.Path(name)
                .read_text(encoding="utf-8", errors="replace")
                .splitlines()
            )
        except OSError as fault:
            print(f"{name}: {fault.strerror}", file=sys.stderr)
            return 1
    print(report_trace(argv[0], lines))
    return 0


if __name__ == "__main__":
    sys.exit(main(sys.argv[1:]))
