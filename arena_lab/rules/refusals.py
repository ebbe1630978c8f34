"""What the program's lines about faults mean, in the words of the lab. docs/FORMATS.md
has all lines."""
import re
from typing import Iterator, NamedTuple, Sequence

# (pattern of a fault, explanation); {0} stands for the number in the fault
MEANINGS = (
    (r"head", "its first line is not the head of a replay"),
    (r"line (\d+)", "line {0} is not spelled as in a replay"),
    (r"end", "it stops before its end line, or goes on behind it"),
    (r"event (\d+)", "what line {0} says could not have happened"),
    (r"differs (\d+)", "by the rules, the reply in line {0} is another"),
    (r"read", "it cannot be read: is there such a file?"),
    (r"write", "it cannot be written there"),
    (r"text", "it is no text in UTF-8, or it has more than 1,048,576 bytes"),
    (r"toml", "it is no TOML"),
    (r"version", "it has no version that this program knows"),
    (r"unknown key", "it has a key that version 3 does not have"),
    (r"missing (\w+)", "it has no key {0}"),
    (r"shape (\w+)", "its key {0} has a value of another kind"),
    (r"home", "the home base is a node of the network (--home)"),
    (r"hole", "black holes are nodes other than the home base, each once (--hole)"),
    (r"agents", "a match has 1 to 64 agents (--agents)"),
    (
        r"quota",
        "an agent has 1 to 1000 commands, and in a file of version 3 up to 65535 (--quota)",
    ),
    (
        r"board",
        "a whiteboard has 0 to 4096 bytes, and in a file of version 3 up to 65535 (--board)",
    ),
    (r"dark", "a dark link is named by one of its ends, once (--dark)"),
    (r"key (\d+) twice", "the key of agent {0} is another agent's too"),
    (
        r"cut node (\d+)",
        "without node {0} the network falls apart, so no team can search it",
    ),
    (r"apart", "its nodes are not all joined"),
    (r"same", "the node is a black hole already"),
    (r"node", "the node does not exist"),
    (r"reached (\d+)", "an agent was at the node, by event {0}"),
    (r"memory", "memory ran out"),
)
LINE = re.compile(r".*: (?:match \d+ )?(.+)", re.DOTALL)
# what the program says of a tournament that is no fault, behind the name of its file
NOTE = re.compile(
    r".* is ignored( without .*\"|: it is a key .* version \d+|: it belongs .*\]"
    r"|: did you mean .*\?|: the keys here are [a-z_, ]+)"
    r"|the schedule is (adaptive|oblivious): .*"
    r"|match \d+ of \S+ has (held|dark) links, .*"
)
# characters of a name that the program escapes, and those that have a letter
CONTROLS = re.compile("[\0-\x1f\x7f-\x9f\u061c\u200e\u200f\u202a-\u202e\u2066-\u2069]")
LETTERS = {"\t": r"\t", "\n": r"\n", "\r": r"\r"}


def file_name(name: str) -> str:
    """The name of a file, as it stands in a line of the program."""
    if not name:
        return "''"
    return CONTROLS.sub(
        lambda match: LETTERS.get(match[0], f"\\u{{{ord(match[0]):x}}}"), name
    )


def names_in(word: str) -> Iterator[str]:
    """The names of files that a word of a command may have: it is FILE, TEAM=FILE or
    FILE:NUMBERS."""
    yield word
    if "=" in word:
        yield word.partition("=")[2]
    module = re.fullmatch(r"([^:]*):[\d,]*", word)
    if module:
        yield module[1]


class Line(NamedTuple):
    """A parsed line of the program: the place that it names ("" without one), its text,
    and whether it is a note on the tournament."""

    where: str
    text: str
    is_note: bool


def split_line(line: str, words: Sequence[str]) -> Line:
    """Parses a line of the program. File names and texts may contain colons, so the
    place is the longest name among the command's words with which the line begins.
    Lines about networks name no place, and their text contains no colon."""
    names = {file_name(name) for word in words for name in names_in(word)}
    prefixes = [name for name in names if line.startswith(f"{name}: ")]
    if not prefixes:
        where, _, text = line.rpartition(": ")
        return Line(where, text, False)
    where = max(prefixes, key=len)
    text = line.removeprefix(f"{where}: ")
    return Line(where, text, NOTE.fullmatch(text) is not None)


def in_words(line: str) -> str:
    """Appends the explanation of a fault to its line, if it has one."""
    match = LINE.fullmatch(line)
    for form, meaning in MEANINGS:
        meanings = re.fullmatch(form, match[1]) if match else None
        if meanings:
            return f"{line}: {meaning.format(*meanings.groups())}"
    return line
