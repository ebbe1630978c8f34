"""Turns a source in Rattle into plain Rust: contracts are left out, and a form that
Rattle has and Rust has not is replaced by a rule, for all files.

What Rattle's std has otherwise than Rust's is in tools/port/std. Nothing is proved of the
result, and nothing checked but what rustc checks; a sum that overflows and an index out
of range stop it.
"""
import re
from typing import Iterator, List, NamedTuple

PRELUDE = "use rattle::prelude::*;\nuse rattle::{eprint, eprintln, format, vec};\n"
# their paths lead to tools/port/std
REPLACED = ("thiserror", "std", "once_cell")
TOKEN = re.compile(
    r"""//[^\n]*|b?"(?:\\.|[^"\\])*"|b?'(?:\\.[^'\n]*|[^'\\\n])'|'?\w+|\s+|.""",
    re.DOTALL,
)
# methods that take an allocator, or that Debian's rustc has not yet, and their names in
# tools/port/std
METHODS = (
    (re.compile(r"\.collect(::<[^()]*>)?\((\w)"), r".collect_in\1(\2"),
    (re.compile(r"\.is_some_and\("), ".is_some_where("),
    (re.compile(r"\.sort_by\("), ".sort_by_in("),
    (re.compile(r"\.replace\(((?:\w+\.)*alloc), "), r".replace_in(\1, "),
)
PAIRS = {"{": "}", "(": ")", "[": "]"}


class Piece(NamedTuple):
    """The Rust text of some tokens, and the index of the next token."""

    text: str
    end: int


def past(tokens: List[str], at: int) -> int:
    """Returns the index behind the bracket that closes the one at this index."""
    closes = [PAIRS[tokens[at]]]
    while closes:
        at += 1
        if tokens[at] in PAIRS:
            closes.append(PAIRS[tokens[at]])
        elif tokens[at] == closes[-1]:
            closes.pop()
    return at + 1


def solid(tokens: List[str], at: int) -> int:
    """The place of the first token from here on that is neither white nor a comment."""
    while at < len(tokens) and (tokens[at].isspace() or tokens[at].startswith("//")):
        at += 1
    return at


def past_clause(tokens: List[str], at: int) -> int:
    """The place behind `requires` or `ensures`, its name and its braces."""
    while tokens[at] != "{":
        at += 1
    return past(tokens, at)


def past_ghost(tokens: List[str], at: int) -> int:
    """The place behind a ghost member, field, import or clause."""
    at = solid(tokens, at + 1)
    if tokens[at] == "{":
        return past(tokens, at)
    while tokens[at] not in (";", ",", "}"):
        at = past(tokens, at) if tokens[at] in PAIRS else at + 1
    return at + (tokens[at] != "}")


def derive_line(text: str) -> str:
    """An attribute without what only Rattle derives."""
    names = re.findall(r"\w+", text.partition("(")[2])
    traits = [name for name in names if name not in ("Drop", "Error")]
    return f"#[derive({', '.join(traits)})]" if traits else ""


def attribute(tokens: List[str], at: int) -> Piece:
    """What stands for an attribute."""
    end = past(tokens, at + 1 + (tokens[at + 1] == "!"))
    text = "".join(tokens[at:end])
    if text.startswith("#[derive("):
        return Piece(derive_line(text), end)
    return Piece("" if re.match(r"#!?\[(tactic|error|cycle)\b", text) else text, end)


def cloning(tokens: List[str], at: int) -> Piece:
    """What stands for `clone`: its Result is unwrapped where it is defined, and made
    again where it is called."""
    head = re.match(
        r"clone\(&self\) -> Result<(\w+), (\w+)> ", "".join(tokens[at : at + 20])
    )
    if not head:
        return Piece("fallible_clone", at + 1)
    body = at
    while tokens[body] != "{":
        body += 1
    end = past(tokens, body)
    result, fault = head.groups()
    text = plain("".join(tokens[body:end]))
    return Piece(
        f"clone(&self) -> {result} {{ (|| -> Result<{result}, {fault}> {text})().unwrap() }}",
        end,
    )


def piece(tokens: List[str], at: int) -> Piece:
    """What stands for the tokens that begin here."""
    token = tokens[at]
    behind = tokens[solid(tokens, at + 1) :][:2]
    if token == "pub" and behind[:1] == ["ghost"]:
        return Piece("", past_ghost(tokens, solid(tokens, at + 1)))
    if token == "ghost":
        return Piece("", past_ghost(tokens, at))
    if token in ("requires", "ensures"):
        return Piece("", past_clause(tokens, at))
    if token == "#" and behind[:1] in (["["], ["!"]):
        return attribute(tokens, at)
    if token in REPLACED and behind == [":", ":"]:
        return Piece("rattle", at + 1)
    if token == "clone" and behind[:1] == ["("]:
        return cloning(tokens, at)
    return Piece(token, at + 1)


def plain(text: str) -> str:
    """Rust for Rattle, without contracts."""
    tokens = TOKEN.findall(text)
    pieces = []
    at = 0
    while at < len(tokens):
        text, at = piece(tokens, at)
        pieces.append(text)
    plain_text = "".join(pieces)
    return plain_text.replace("fn fmt<W: fmt::Write>", "fn fmt").replace(
        "Formatter<W>", "Formatter<'_>"
    )


def without_forms(text: str) -> str:
    """Plain Rust with the methods of tools/port/std, and without modules of tests."""
    text = re.sub(r"#\[cfg\(test\)\]\s*mod \w+;\n", "", text)
    text = re.sub(r"\bfinal fn\b", "fn", plain(text))
    for pattern, instead in METHODS:
        text = pattern.sub(instead, text)
    return re.sub(
        r"fn (\w+)<W: (?:fmt::)?Write>\((?=[^{]*Formatter<'_>)", r"fn \1(", text
    )


def variants(body: str) -> Iterator["re.Match[str]"]:
    """The variants of an enum of errors: `text`, `name` and `fields` of each."""
    return re.finditer(
        r'#\[error\("(?P<text>(?:[^"\\]|\\.)*)"\)\]\s*(?:#\[[^\]]*\]\s*)*'
        r"(?P<name>\w+)\s*(?P<fields>\([^)]*\)|\{[^}]*\})?",
        body,
    )


def arm(path: str, text: str, fields: str) -> str:
    """The arm of a match that writes the text of an error."""
    if fields.startswith("("):
        count = len([field for field in fields[1:-1].split(",") if field.strip()])
        bound = ", ".join(f"_{index}" for index in range(count))
        text = re.sub(r"\{(\d+)", r"{_\1", text)
        return f'{path}({bound}) => std::write!(f, "{text}"),'
    names = dict.fromkeys(re.findall(r"\{(\w+)", text))
    bound = "".join(f"{name}, " for name in names)
    return f'{path} {{ {bound}.. }} => std::write!(f, "{text}"),'


def displays(text: str) -> Iterator[str]:
    """An implementation of Display for each error of a source, by its attributes."""
    heads = re.finditer(
        r"#\[derive\([^)]*\bError\)\]\s*(?:#\[[^\]]*\]\s*)*?"
        r'(?:#\[error\("(?P<text>(?:[^"\\]|\\.)*)"\)\]\s*)?'
        r"pub (?P<kind>enum|struct) (?P<name>\w+)",
        text,
    )
    for head in heads:
        name = head["name"]
        if head["kind"] == "struct":
            arms = arm(name, head["text"] or "", "")
        else:
            tokens = TOKEN.findall(text[head.end() :])
            at = solid(tokens, 0)
            body = "".join(tokens[at : past(tokens, at)])
            arms = " ".join(
                arm(
                    f"{name}::{variant['name']}",
                    variant["text"],
                    variant["fields"] or "",
                )
                for variant in variants(body)
            )
        yield (
            f"impl std::fmt::Display for {name} {{ fn fmt(&self, f: &mut std::fmt::Formatter<'_>) "
            f"-> std::fmt::Result {{ match self {{ {arms} }} }} }}\n"
            f"impl std::error::Error for {name} {{}}\n"
        )


def rust_of(source: str) -> str:
    """A file of a crate as plain Rust."""
    head, body = re.fullmatch(r"((?:\s*//![^\n]*\n)*)(.*)", source, re.DOTALL).groups()
    return head + PRELUDE + without_forms(body) + "\n" + "".join(displays(source))
