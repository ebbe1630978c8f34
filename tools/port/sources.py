"""Writes crates, and libraries of the installed toolchain, as plain Rust, by
tools/port/stripped.py and the rules of tools/port/rules.py."""
import pathlib
import re
from typing import Iterator, Tuple

from tools.port import crates
from tools.port.rules import LEFT_OUT, RULES, WITHOUT_SOCKETS, Rule
from tools.port.stripped import rust_of


class StaleRuleError(Exception):
    """A rule whose pattern is in no file."""


def is_needed(crate: str, name: str) -> bool:
    """Whether a file of a crate becomes a part of the port."""
    is_test = re.search(r"(^|/)tests(/|\.rt$)", name)
    return not is_test and name not in LEFT_OUT.get(crate, ("", ()))[1]


def rules_of(crate: str, has_sockets: bool) -> Tuple[Rule, ...]:
    """Returns the rules for a crate's files; a page has further ones."""
    page_rules = () if has_sockets else WITHOUT_SOCKETS.get(crate, ())
    return (*RULES.get(crate, ()), *page_rules)


def apply_rules(crate: str, name: str, text: str, has_sockets: bool = True) -> str:
    """A file in plain Rust with the rules of its crate."""
    for rule in rules_of(crate, has_sockets):
        if rule.file not in (name, "*"):
            continue
        text, count = re.subn(
            rule.pattern,
            lambda match: match.expand(rule.instead)
            if "\\1" in rule.instead
            else rule.instead,
            text,
        )
        if not count and rule.file != "*":
            raise StaleRuleError(
                f"tools/port/rules.py: {crate}: {name} has no {rule.pattern}"
            )
    return text


def plain_files(
    crate: str, source: pathlib.Path, has_sockets: bool = True
) -> Iterator[Tuple[str, str]]:
    """The names and texts of a crate's files as plain Rust."""
    for path in sorted(source.rglob("*.rt")):
        name = str(path.relative_to(source))
        if is_needed(crate, name):
            is_root = name in ("mod.rt", "main.rt")
            target = "lib.rs" if is_root else name[: -len(".rt")] + ".rs"
            text = rust_of(path.read_text(encoding="utf-8"))
            yield target, apply_rules(crate, name, text, has_sockets)


def is_plain(crate: str) -> bool:
    """Whether a crate or library is in plain Rust here: in the repository, or in a source archive."""
    is_vendored = crates.is_library(crate) and crates.is_vendored()
    return crate == crates.STD or crate in crates.OWN or is_vendored


def texts_of(crate: str, has_sockets: bool = True) -> Iterator[Tuple[str, str]]:
    """The names and texts of a crate's or library's files, as rustc reads them."""
    if not is_plain(crate):
        yield from plain_files(crate, source_of(crate), has_sockets)
        return
    root = plain_root(crate)
    paths = [root] if crate in crates.OWN else sorted(root.parent.rglob("*.rs"))
    for path in paths:
        yield str(path.relative_to(root.parent)), path.read_text(encoding="utf-8")


def source_of(crate: str) -> pathlib.Path:
    """The folder of the proved source of a crate, or of a library of the toolchain."""
    if crates.is_library(crate):
        return crates.kit_source(crate)
    return crates.TOP / "crates" / crate / "src"


def plain_root(crate: str) -> pathlib.Path:
    """The root file of a library that is in plain Rust here."""
    if crate == crates.STD:
        return crates.HERE / "std" / "lib.rs"
    if crate in crates.OWN:
        return crates.HERE / "libraries" / f"{crate}.rs"
    return crates.VENDOR / crate / "lib.rs"


def root_of(crate: str, out: pathlib.Path, has_sockets: bool = True) -> pathlib.Path:
    """The root file of a crate or library; a crate's plain Rust is written to a folder first."""
    if is_plain(crate):
        return plain_root(crate)
    for name, text in plain_files(crate, source_of(crate), has_sockets):
        path = out / crate / name
        path.parent.mkdir(parents=True, exist_ok=True)
        path.write_text(text, encoding="utf-8")
    return out / crate / "lib.rs"
