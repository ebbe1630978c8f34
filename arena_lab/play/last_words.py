"""What a program says when it crashes: the line that names the error.

Each language ends what it prints otherwise: Node.js with its version, Java with the
last frame, Rust with a note. Its marks tell the language, and where the error stands in
what it prints.
"""
import itertools
import pathlib
import re
from typing import Callable, List, Optional, Sequence, Tuple

# with what lines begin that are no words of the program: see course/sender_marks.py
MARK = "\x1e"
# characters of a line that are looked at
WIDEST = 1000
ERROR_NAME = r"(?:[\w.]+\.)?\w*(?:Error|Exception|Interrupt|Warning|Rejection)\b"
# numbers of processes and threads, which differ in each run
PROCESS = re.compile(r"(?<===)\d+(?===)|(?<=') \(\d+\)(?= panicked)")
LOOKS = re.compile(
    r"\b(?:\w*error|\w*exception|panic\w*|fatal|abort\w*|assert\w*|cannot|denied|segmentation fault)\b",
    re.IGNORECASE,
)


# a frame of Python's traceback; how a program is called, behind "usage:"; and an
# argument in a line that shows a call
FRAME = re.compile(r'  File "(.*)", line (\d+)')
USAGE = re.compile(r"\s*usage:\s*(\S.*)", re.IGNORECASE)
ARGUMENT = re.compile(r"\[?[A-Z]{2,}\]?")


# what an answer of a departure lacks, and every answer that shows a node has
LACKS = re.compile(r"KeyError: '(ports|from|board)'")


def asked_behind(error: str) -> str:
    """Returns advice for an error that names a missing member of a reply."""
    match = LACKS.search(error)
    return (
        f"; an answer had no `{match[1]}`: a departure is answered twice, are both answers read?"
        if match
        else ""
    )


def usage_in(text: str) -> str:
    """How a program is called, if it says so and names no error: it was called
    otherwise."""
    lines = [line[:WIDEST] for line in text.split("\n")]
    if any(of(lines) for of in LANGUAGES) or any(LOOKS.search(line) for line in lines):
        return ""
    usages = (match[1] for line in lines if (match := USAGE.match(line)))
    return next(itertools.chain(usages, filter(is_call, lines)), "").strip()


def is_call(line: str) -> bool:
    """Returns whether an indented line shows a call: words, of which the last two or
    more are arguments in capitals."""
    words = line.split()
    arguments = list(itertools.takewhile(ARGUMENT.fullmatch, reversed(words)))
    return line[:1].isspace() and 2 <= len(arguments) < len(words)


def first(lines: Sequence[str], pattern: str) -> Optional[int]:
    """The place of the first line that begins so."""
    return next(
        (index for index, line in enumerate(lines) if re.match(pattern, line)), None
    )


def line_like(lines: Sequence[str], pattern: str) -> Optional[str]:
    """The first line that begins so."""
    return next((line for line in lines if re.match(pattern, line)), None)


def where_of(line: str) -> str:
    """The place that a frame of Python names, if it is of the agent's own files."""
    match = FRAME.match(line)
    if match is None:
        return ""
    path = pathlib.PurePath(match[1])
    is_own = path.name != "client.py" and "/lib/python3" not in str(path)
    return f" ({path.name}, line {match[2]})" if is_own else ""


def of_python(lines: Sequence[str]) -> Optional[str]:
    """The line behind the frames of the last traceback, with the last frame of the
    agent's own file; or of a file that cannot be read."""
    places = [
        index
        for index, line in enumerate(lines)
        if line.startswith("Traceback (most recent call last)")
    ]
    if places:
        locations = [where for line in lines[places[-1] :] if (where := where_of(line))]
        message = next(
            (
                line
                for line in lines[places[-1] + 1 :]
                if line.strip() and not line.startswith(" ")
            ),
            None,
        )
        return message and message + "".join(locations[-1:])
    start = next((index for index, line in enumerate(lines) if FRAME.match(line)), None)
    if start is None:
        return None
    message = line_like(lines[start:], ERROR_NAME)
    return message and message + where_of(lines[start])


def of_encoding(lines: Sequence[str]) -> Optional[str]:
    """The file that Python cannot read as a text in UTF-8."""
    match = re.search(
        r"SyntaxError: Non-UTF-8 code .* in file (.*) on line (\d+)", "\n".join(lines)
    )
    if match is None:
        return None
    name = pathlib.PurePath(match[1]).name
    return f"{name}, line {match[2]}: it is no text in UTF-8: save it so"


def of_java(lines: Sequence[str]) -> Optional[str]:
    """The first exception of a thread, and what caused it in the end."""
    index = first(lines, 'Exception in thread "')
    if index is None:
        return line_like(lines, r"\S+\.java:\d+: error: ")
    causes = [line for line in lines[index:] if line.startswith("Caused by: ")]
    return "; ".join([lines[index], *causes[-1:]])


def of_rust(lines: Sequence[str]) -> Optional[str]:
    """A panic, whose message stands in the next line since Rust 1.73."""
    index = first(lines, r"thread '.*' (?:\(\d+\) )?panicked at ")
    if index is None:
        return None
    behind = lines[index + 1 : index + 2] if lines[index].endswith(":") else []
    return " ".join([lines[index], *behind])


def of_cpp(lines: Sequence[str]) -> Optional[str]:
    """An exception that nobody caught, with what it says; or what a sanitizer or an
    assertion tells."""
    index = first(lines, "terminate called ")
    if index is not None:
        behind = [
            line.strip()
            for line in lines[index + 1 : index + 2]
            if line.strip().startswith("what():")
        ]
        return ": ".join(
            [lines[index], *(line.removeprefix("what():").strip() for line in behind)]
        )
    return line_like(
        lines,
        r"==\d+==ERROR: |.*: Assertion .* failed\.$|\S+:\d+(?::\d+)?: (?:fatal )?error: ",
    )


def of_javascript(lines: Sequence[str]) -> Optional[str]:
    """The error, or what else was thrown, which stands behind the line that points to
    the source."""
    if (
        first(lines, r"Node\.js v\d") is None
        and first(lines, r"\s+at .*(?::\d+:\d+\)?|<anonymous>\)?)$") is None
    ):
        return None
    line = line_like(lines, rf"(?:Uncaught )?\[?{ERROR_NAME}")
    pointer = first(lines, r"\s*\^+\s*$")
    if line is not None or pointer is None:
        return line
    return next((line for line in lines[pointer + 1 :] if line.strip()), None)


# parsers by language; the first result is used, and for Go and .NET one line suffices
LANGUAGES: Tuple[Callable[[Sequence[str]], Optional[str]], ...] = (
    of_encoding,
    of_python,
    of_java,
    of_rust,
    lambda lines: line_like(lines, r"(?:panic|fatal error): "),
    of_cpp,
    lambda lines: line_like(lines, "Unhandled exception"),
    of_javascript,
)


def error_in(text: str) -> str:
    """The line of what a program wrote to standard error that names its error: by
    language, else the first that looks like an error, else the last."""
    lines: List[str] = [
        line[:WIDEST].rstrip()
        for line in text.split("\n")
        if line.strip() and not line.startswith(MARK)
    ]
    error_line = next((line for line in (of(lines) for of in LANGUAGES) if line), None)
    if error_line is None:
        likely = [line for line in lines if LOOKS.search(line)]
        error_line = [*likely, *lines[-1:], ""][0]
    return PROCESS.sub("", error_line).strip()
