"""Lists what nothing names: lemmas and definitions, dependencies of crates, and
functions in Python; and lemmas and definitions that stand in two crates.

    python3 -m tools.prove.unnamed

- A lemma or a definition of `crates/*/specs` or `crates/*/proofs` is unnamed if neither
  another definition of its file nor a file that imports it has its name. The prover
  names what is `pub` in the folder of a function, and a worked row (`.._row`) is
  checked where it stands.
- A library behind a crate in `crates.txt` is unnamed if no file of the crate has its
  name.
- A lemma or a definition stands twice if one of another crate has the same text but for
  its own name, and it is not short.
- A function, method or class in Python is unnamed if its name stands nowhere else, in
  no file of the repository.

A row for each is printed. `tools/prove/known_unnamed` has the rows that are known:
tests/test_unnamed.py fails for a row more, and for a row of the file that is no longer
true. So delete what is unnamed, and its row.
"""
import ast
import collections
import pathlib
import re
import subprocess
from typing import Counter, Dict, Iterator, List, Set, Tuple

from tools.prove.prover import CRATES, TOP, libraries_of, sources_of

KNOWN_FILE = TOP / "tools" / "prove" / "known_unnamed"
WORD = re.compile(r"[\w'◌-]+")
MARKS = re.compile(r"(?:abbrev |unfoldable |pub )*(?:data |record )?")
HEAD = re.compile(r"[A-Za-z][\w'-]* (?::|\{|\()")
USE = re.compile(
    r"^ *(?:ghost )?use Rattle\.([\w.]+?)(?:\.\{([^}]*)\}| as (\w+))", re.MULTILINE
)
RENAMED_IMPORT = re.compile(r"(\S+) as (\S+)")
# a lemma or definition that an attribute of a function names
ATTRIBUTE = re.compile(r"crate::((?:specs|proofs)(?:::\w+)*)::([\w'-]+)")
ROW = "_row"
# what a library calls by its name
CALL_PATTERN = re.compile(
    r"__\w+__|test\w*|setUp\w*|tearDown\w*|visit_\w+|do_[A-Z]+|has_\w+_permission"
)
TEXTS = (
    ".py",
    ".md",
    ".rs",
    ".sh",
    ".html",
    ".js",
    ".toml",
    ".ipynb",
    ".rows",
    ".service",
    "",
)

# shorter definitions (in characters) may be duplicated
SHORT = 150

# (module, name)
Place = Tuple[str, str]


def text_of(path: pathlib.Path) -> str:
    """The text of a file, without comments."""
    return re.sub(
        r"(?:--|//).*", "", path.read_text(encoding="utf-8", errors="replace")
    )


def module_of(path: pathlib.Path) -> str:
    return ".".join(path.relative_to(CRATES).with_suffix("").parts)


def blocks(text: str) -> Iterator[Tuple[str, str]]:
    """The definitions of a file: the first word of each, which is its name, and its
    lines."""
    name = ""
    lines = []
    for line in text.splitlines():
        first = (
            MARKS.sub("", line, count=1).split(" ")[0]
            if line and line[0] not in " )]}|"
            else name
        )
        if first != name:
            yield name, "\n".join(lines)
            name = first
            lines = []
        lines.append(line)
    yield name, "\n".join(lines)


def definitions(path: pathlib.Path) -> Iterator[str]:
    """Yields names defined in a file that occur in no other definition of it, and that
    therefore another file must use."""
    blocks_found = list(blocks(text_of(path)))
    counts = collections.Counter(
        word for _, text in blocks_found for word in set(WORD.findall(text))
    )
    is_of_a_function = path.parent.name not in ("specs", "proofs")
    for name, text in blocks_found:
        marks = MARKS.match(text)[0]
        is_goal = is_of_a_function and "pub " in marks
        if (
            HEAD.match(text[len(marks) :])
            and counts[name] == 1
            and not is_goal
            and not name.endswith(ROW)
        ):
            yield name


def imports_of(text: str) -> Iterator[Tuple[str, str, str]]:
    """What a file imports: modules, names of them or nothing for a whole module, and
    how they are called here."""
    for module, names, alias in USE.findall(text):
        for name in filter(None, map(str.strip, names.split(","))):
            match = RENAMED_IMPORT.fullmatch(name)
            yield (module, match[1], match[2]) if match else (module, name, name)
        if alias:
            yield module, "", alias


def named_in(path: pathlib.Path) -> Iterator[Place]:
    """Yields imports of a file, and all words of its text."""
    text = text_of(path)
    rest = USE.sub("", text)
    words = set(WORD.findall(rest))
    qualified_names = set(re.findall(r"(\w+)\.([\w'-]+)", rest))
    for module, name, here in imports_of(text):
        if not name:
            yield from (
                (module, part) for front, part in qualified_names if front == here
            )
        elif here in words:
            yield module, name
    crate = path.relative_to(CRATES).parts[0]
    for module, name in ATTRIBUTE.findall(text):
        yield f"{crate}.{module.replace('::', '.')}", name


def lemmas() -> Iterator[str]:
    """The lemmas and definitions that nothing names."""
    files = [
        path
        for crate in libraries_of()
        for path in sources_of(crate)
        if path.suffix in (".rt", ".antt")
    ]
    places_named = {place_named for path in files for place_named in named_in(path)}
    for path in files:
        if path.suffix == ".antt":
            yield from (
                f"{path.relative_to(TOP)} {name}"
                for name in definitions(path)
                if (module_of(path), name) not in places_named
            )


def twice() -> Iterator[str]:
    """The lemmas and definitions that stand in more than one crate."""
    places: Dict[str, List[str]] = collections.defaultdict(list)
    for path in sorted(CRATES.glob("*/specs/*.antt")) + sorted(
        CRATES.glob("*/proofs/*.antt")
    ):
        for name, text in blocks(text_of(path)):
            pattern = re.compile(rf"(?<![\w'-]){re.escape(name)}(?![\w'-])")
            body = " ".join(pattern.sub("@", MARKS.sub("", text, count=1)).split())
            if name != "use" and len(body) > SHORT:
                places[body].append(f"{path.relative_to(TOP)} {name}")
    yield from (
        " = ".join(all_places)
        for all_places in places.values()
        if len({definition.split("/")[1] for definition in all_places}) > 1
    )


def dependencies() -> Iterator[str]:
    """The libraries of crates that no file of the crate names."""
    for crate, libraries in libraries_of().items():
        words: Set[str] = set()
        for path in sources_of(crate):
            words.update(
                re.findall(r"\w+", path.read_text(encoding="utf-8", errors="replace"))
            )
        yield from (
            f"crates.txt {crate} {library}"
            for library in libraries
            if library not in words
        )


def kept_files() -> List[pathlib.Path]:
    """Lists the repository's files outside of crates/."""
    parts = subprocess.run(
        ["git", "ls-files", "-co", "--exclude-standard"],
        cwd=TOP,
        capture_output=True,
        text=True,
        check=True,
    ).stdout.split("\n")
    return [
        TOP / name
        for name in parts
        if name and not name.startswith("crates/") and (TOP / name).is_file()
    ]


def is_called_by_name(node: ast.AST) -> bool:
    """Returns whether a library finds a function, a method or a class by itself: by a
    decorator, or as a class of tests."""
    return (
        bool(node.decorator_list)
        or isinstance(node, ast.ClassDef)
        and any(
            isinstance(part, ast.FunctionDef) and part.name.startswith("test")
            for part in node.body
        )
    )


def functions() -> Iterator[str]:
    """The functions, methods and classes in Python whose names stand nowhere else."""
    words: Counter[str] = collections.Counter()
    places: Dict[str, str] = {}
    for path in kept_files():
        if path.suffix in TEXTS and path != KNOWN_FILE:
            text = path.read_text(encoding="utf-8", errors="replace")
            words.update(re.findall(r"\w+", text))
            for node in ast.walk(ast.parse(text)) if path.suffix == ".py" else ():
                if isinstance(
                    node, (ast.FunctionDef, ast.AsyncFunctionDef, ast.ClassDef)
                ):
                    if not is_called_by_name(node) and not CALL_PATTERN.fullmatch(
                        node.name
                    ):
                        places[node.name] = f"{path.relative_to(TOP)} {node.name}"
    yield from (definition for name, definition in places.items() if words[name] == 1)


def unnamed_names() -> List[str]:
    return sorted([*lemmas(), *twice(), *dependencies(), *functions()])


def known_rows() -> List[str]:
    """Returns the rows of the file of known exceptions."""
    return [
        line
        for line in KNOWN_FILE.read_text(encoding="utf-8").splitlines()
        if line and not line.startswith("#")
    ]


if __name__ == "__main__":
    print("\n".join(unnamed_names()))
