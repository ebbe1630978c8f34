"""Lines of agents that were refused: how many, the first, and the likeliest mistake
behind it.

A refusal says as little as the rules do, such as `{"no":"line"}`. Here stands what a
student reads beside it.
"""
import difflib
import json
import re
from typing import Any, Callable, Dict, List, NamedTuple, Optional, Sequence, Tuple

from arena_lab.rules.limits import MAX_LINE
from arena_lab.rules.model import SHAPES

# characters of a line that are shown
MAX_SHOWN = 80
MARK = b"\xef\xbb\xbf"
HTTP = re.compile(r"[A-Z]+ \S+ HTTP/\d")
# members of an object whose names have no quotes, as JavaScript, Java and Rust print
# them; and the middle of an object that was printed over several lines
UNQUOTED_NAME = re.compile(r"[\w.$]*\s*\{\s*[A-Za-z_]\w*\s*[:=]")
MIDDLE = re.compile(r'[{}]|"\w+"\s*:.*,?')
NOTHING = object()
DECODER = json.JSONDecoder()


class RefusedLine:
    """A line that was refused: its bytes, its text, and the JSON value at its beginning
    with what follows."""

    def __init__(self, raw: bytes) -> None:
        self.raw = raw
        self.text = raw.decode("utf-8", "replace").strip()
        self.value: Any = NOTHING
        self.rest = self.fault = ""
        try:
            self.value, end = DECODER.raw_decode(self.text)
            self.rest = self.text[end:].strip()
        except ValueError as fault:
            self.fault = str(fault)
        except RecursionError:
            self.fault = "objects stand too deep in each other"

    @property
    def members(self) -> Dict[str, Any]:
        """Returns the members of the JSON object in the line, or {} for any other
        line."""
        return self.value if isinstance(self.value, dict) and not self.rest else {}

    @property
    def do(self) -> str:
        """Returns the name of the command in the line, or "" if it is unknown."""
        do = self.members.get("do")
        return do if isinstance(do, str) and do in SHAPES else ""

    def of(self, kind: type) -> List[str]:
        """Returns the members of this type that the command requires."""
        return [
            name
            for name, member_type in SHAPES.get(self.do, {}).items()
            if member_type is kind
        ]

    def port(self) -> Any:
        """The port that the line names, if its command has one and the line has that
        member."""
        return self.members.get("port", NOTHING) if "port" in self.of(int) else NOTHING


# returns a message about a rejected line, or None if the line shows another mistake
Mistake = Callable[[RefusedLine], Optional[str]]


def when(shows: Callable[[RefusedLine], object], message: str) -> Mistake:
    """Makes a mistake with a constant message."""
    return lambda line: message if shows(line) else None


def is_no_utf8(line: RefusedLine) -> bool:
    try:
        line.raw.decode("utf-8")
        return False
    except UnicodeDecodeError:
        return True


def unknown(line: RefusedLine) -> Optional[str]:
    if not line.members or line.do:
        return None
    command_name = line.members["do"]
    near = difflib.get_close_matches(
        str(command_name).lower()[:MAX_SHOWN], SHAPES, 1, 0.7
    )
    advice = (
        f"did you mean {near[0]}?" if near else f"the commands are {', '.join(SHAPES)}"
    )
    return f"there is no command {json.dumps(command_name, ensure_ascii=False)[:MAX_SHOWN]}; {advice}"


def port_as_text(line: RefusedLine) -> Optional[str]:
    if isinstance(line.port(), str):
        return f'the port is a text: write the number without quotes, as in "port":{line.port()[:9].strip() or 0}'
    return None


def missing(line: RefusedLine) -> Optional[str]:
    names = [name for name in SHAPES.get(line.do, {}) if name not in line.members]
    if names:
        return f"{line.do} needs {' and '.join(json.dumps(name) for name in names)} too: a member is missing"
    return None


def of_another_type(line: RefusedLine) -> Optional[str]:
    for kind, description in (
        (str, "a text in double quotes"),
        (int, "a whole number"),
    ):
        for name in line.of(kind):
            if type(line.members.get(name)) is not kind:
                return f'"{name}" has to be {description}; make other values a text first, as by json.dumps'
    return None


def bare_word(line: RefusedLine) -> Optional[str]:
    word = re.split(r"\W", line.text.strip('"').lower(), 1)[0]
    if word in SHAPES and not line.text.startswith(("{", "[")):
        shape = {"do": word, **{name: kind() for name, kind in SHAPES[word].items()}}
        return f"it is a word and no object: write {json.dumps(shape, separators=(',', ':'))}"
    return None


def broken(line: RefusedLine) -> Optional[str]:
    if line.text.startswith("{"):
        behind = (
            "something stands behind the object"
            if line.rest
            else "half a character, or a number such as NaN"
        )
        return f"it is no JSON: {line.fault or behind}"
    return None


# name -> mistake; the first that matches is reported
MISTAKES: Dict[str, Mistake] = {
    "mark": when(
        lambda line: line.raw.startswith(MARK),
        "a byte order mark stands before the line: open the stream as UTF-8 without a mark",
    ),
    "utf16": when(
        lambda line: b"\0" in line.raw or line.raw[:2] in (b"\xff\xfe", b"\xfe\xff"),
        "it has bytes of zero, as UTF-16 has: send UTF-8",
    ),
    "too_long": when(
        lambda line: len(line.raw) > MAX_LINE,
        f"it is longer than {MAX_LINE:,} bytes: end each command "
        "with a line feed, and write shorter texts",
    ),
    "not_utf8": when(
        is_no_utf8,
        "it is not UTF-8: send texts in UTF-8, and no bytes of numbers or structures",
    ),
    "of_http": when(
        lambda line: HTTP.match(line.text),
        "it is a request of HTTP: open a socket of TCP and send the "
        "command as a line, without a web client",
    ),
    "two_objects": when(
        lambda line: isinstance(line.value, dict)
        and line.rest.lstrip(", ;").startswith("{"),
        "two commands stand in one line: end each with a line feed of its own",
    ),
    "encoded_twice": when(
        lambda line: isinstance(line.value, str)
        and line.value.lstrip().startswith("{"),
        "the whole command stands in quotes, as it was made JSON twice: make it JSON once",
    ),
    "single_quotes": when(
        lambda line: re.match(r"\{\s*'", line.text),
        "it has single quotes, as Python prints a dict: "
        "JSON has double quotes, which json.dumps, or in JavaScript JSON.stringify, writes",
    ),
    "names_without_quotes": when(
        lambda line: UNQUOTED_NAME.match(line.text),
        "the names of members have no double quotes, "
        'as when an object is printed and not made JSON: write {"do":..}, in JavaScript by '
        "JSON.stringify",
    ),
    "over_several_lines": when(
        lambda line: MIDDLE.fullmatch(line.text)
        and (line.value is NOTHING or line.rest[:1] == ":"),
        "it is a part of an object that stands over several lines: print each command in one line, not indented",
    ),
    "no_do": when(
        lambda line: isinstance(line.value, dict)
        and not line.rest
        and "do" not in line.value,
        f'it has no member "do", which names the command: {", ".join(SHAPES)}',
    ),
    "unknown": unknown,
    "port_as_text": port_as_text,
    "port_as_fraction": when(
        lambda line: isinstance(line.port(), float),
        "the port is a fraction: write it as a whole number, as 0 and not 0.0",
    ),
    "port_out_of_range": when(
        lambda line: type(line.port()) is int,
        "the port is no number from 0 to 65535: ports are 0 to `ports` - 1 of the node",
    ),
    "missing": missing,
    "of_another_type": of_another_type,
    "bare_word": bare_word,
    "broken": broken,
    "no_object": when(
        lambda line: line.value is not NOTHING
        and not line.rest
        and not isinstance(line.value, dict),
        "it is a JSON value and no object: a command is an object, one in a line",
    ),
    "debug": when(
        lambda line: True,
        "it is no JSON: print what is for you to standard error, and only commands where "
        "the server reads",
    ),
}


def likely(raw: bytes) -> str:
    """The likeliest mistake behind a line that is no command."""
    line = RefusedLine(raw)
    return next(
        message
        for message in (mistake(line) for mistake in MISTAKES.values())
        if message
    )


def plain(text: str) -> str:
    """A text without characters that are not seen but do something, such as those that
    colour a terminal, hide what stands before them or turn the direction of writing:
    the code of each stands in its place."""
    return "".join(
        char if char.isprintable() else char.encode("unicode_escape").decode()
        for char in text
    )


def quote_line(raw: bytes, limit: int = MAX_SHOWN) -> str:
    """A line of a stranger as it may be shown: escaped, and cut."""
    text = raw[: 4 * limit + 4].decode("utf-8", "backslashreplace").strip()
    text = "".join(f"\\u{ord(char):04x}" if char == "\ufeff" else char for char in text)
    line_text = plain(text)
    return (
        line_text
        if len(line_text) <= limit and len(raw) <= 4 * limit
        else f"{line_text[:limit]}.. ({len(raw):,} bytes)"
    )


# of each refusal what one line, and what several lines have done
LINE = "line"
PORT = "port"
LONG = "long"
ENTER = "enter"
UNENDED = "unended"
KINDS: Dict[str, Tuple[str, str]] = {
    LINE: ("1 line was no command", "{} lines were no commands"),
    PORT: (
        "1 line named a port that its node does not have",
        "{} lines named ports that their nodes do not have",
    ),
    LONG: (
        "1 text was longer than a whiteboard holds",
        "{} texts were longer than a whiteboard holds",
    ),
    ENTER: ("its first line was no enter", "{} first lines were no enter"),
    UNENDED: (
        "what it sent last was not taken, as no line feed stands behind it",
        "{} lines have no line feed",
    ),
}
# the required first line of a connection
FIRST = 'the first line is {"do":"enter","key":KEY}'


class First(NamedTuple):
    """The first line that an agent had refused in a way, and why."""

    line: str
    cause: str


class Refusals:
    """The lines of a match that were refused: of each agent and kind how many, and the
    first."""

    def __init__(self, keys: Sequence[str]) -> None:
        self._keys = [key.encode() for key in keys]
        self._count: Dict[Tuple[int, str], int] = {}
        self._first: Dict[Tuple[int, str], First] = {}

    def note(
        self,
        agent: int,
        why: str,
        raw: bytes,
        stable: Callable[[str], str],
        fact: str = "",
    ) -> None:
        """Notes a line that was refused. A fact says of the node what the line missed.
        What is another on each run is taken away, and so are keys."""
        if why not in KINDS:
            return
        count_key = agent, why
        self._count[count_key] = self._count.get(count_key, 0) + 1
        if count_key not in self._first:
            for key in self._keys:
                raw = raw.replace(key, b"KEY")
            self._first[count_key] = First(
                stable(quote_line(raw)), cause(why, raw, fact)
            )

    def sentences(self) -> List[str]:
        """A line for each agent and kind."""
        return [
            f"agent {agent}: {count_text(why, self._count[agent, why])}: `{first.line}`: {first.cause}"
            for (agent, why), first in sorted(self._first.items())
        ]


def count_text(why: str, count: int) -> str:
    singular, several = KINDS[why]
    return singular if count == 1 else f"{several.format(f'{count:,}')}; the first"


def cause(why: str, raw: bytes, fact: str) -> str:
    """Returns the additional message about a rejected line."""
    if why == ENTER:
        line = RefusedLine(raw)
        return FIRST if line.do else f"{FIRST}; {likely(raw)}"
    if why == UNENDED:
        return "end each line with a line feed, and flush"
    return likely(raw) if why == LINE else fact
