"""Measures how readable the names and comments of source files are.

    python3 -m tools.words [--worst N] PATH ..
    python3 -m tools.words [--worst N] --base REVISION

PATH is a file or a folder of .py, .rs, .rt, .antt or .c files. Three figures are printed
for each:

    sentences   how many sentences of comments and docstrings (6 to 45 words) consist of
                articles, pronouns, prepositions and auxiliaries for 65 % or more. Such a
                sentence rarely names the thing that it describes.
    names       how many assigned names and parameters of Python are a bare participle
                (`found`, `told`) or a pronoun (`it`, `one`)
    functions   how many functions of Python have such a name

The sources of networkx, Django, Hypothesis and black have 0.9 to 2.0 %, 1.7 to 2.4 % and
0.1 to 1.3 %. With --base, the sentences and names of changed files are printed that
REVISION does not have. `tests/size.toml` keeps the counts of each folder.
"""

import argparse
import ast
import pathlib
import re
import subprocess
from typing import Iterable, Iterator, List, NamedTuple, Tuple

THRESHOLD = 0.65
CLOSED_CLASS = frozenset(
    """what which that it of is are as than one ones none those who whom whose them they this
    these so in on by at be was were has have had do does did an a the to and or if where there
    here their its for with from into out up over not no each other others all any some such both
    either neither but when while until since because though whether how why i you he she we us our
    your his her him me my can could may might must shall should will would been being am about
    above after again against along among around before behind below beside between beyond down
    during except inside near off onto outside through throughout toward under upon within without
    then else also only too very""".split()
)
VAGUE_NAMES = frozenset(
    """found said told given made asked tried drawn shown kept left done held seen met spent come
    came gone taken written read ran played judged refused wanted named counted listed graded ended
    known begun meant put sent it one own more most other others way place""".split()
)
COMMENT_LINE = {
    ".py": r"\s*# (.*)",
    ".rt": r"\s*(?:///|//!|//) ?(.*)",
    ".rs": r"\s*(?:///|//!|//) ?(.*)",
    ".antt": r"\s*-- ?(.*)",
    ".c": r"(?:\*\*|/\*) ?(.*)",
}
# generated files, what tools write, and libraries of others
SKIPPED_FOLDERS = {"migrations", "out", "vendor"}


class Sentence(NamedTuple):
    """A sentence of a comment, and the share of its words that are of closed classes."""

    share: float
    line: int
    text: str

    @property
    def is_vague(self) -> bool:
        return self.share >= THRESHOLD


class Words(NamedTuple):
    """The sentences of comments in some files, and the names that Python assigns."""

    sentences: List[Sentence]
    names: List[str]
    functions: List[str]

    def vague(self) -> Tuple[int, int, int]:
        """Returns the numbers of vague sentences, names and functions."""
        return (
            sum(sentence.is_vague for sentence in self.sentences),
            sum(map(is_vague, self.names)),
            sum(map(is_vague, self.functions)),
        )

    def __str__(self) -> str:
        totals = (len(self.sentences), len(self.names), len(self.functions))
        columns = zip(("sentences", "names", "functions"), self.vague(), totals)
        return "   ".join(
            f"{name} {100 * vague / max(1, total):5.1f} % of {total:5}"
            for name, vague, total in columns
        )


def sentences(text: str, line: int) -> Iterator[Sentence]:
    """Yields the sentences of 6 to 45 words of a comment that begins in a line."""
    for sentence in re.split(r"(?<=[.!?])\s+", " ".join(text.split())):
        words = re.findall(r"[A-Za-z']+", sentence)
        if 6 <= len(words) <= 45:
            share = sum(word.lower() in CLOSED_CLASS for word in words) / len(words)
            yield Sentence(share, line, sentence)


def docstrings(source: str) -> Iterator[Tuple[int, str]]:
    """Yields the line and the first paragraph of each docstring of Python source."""
    for node in ast.walk(ast.parse(source)):
        if isinstance(node, (ast.Module, ast.ClassDef, ast.FunctionDef)):
            docstring = ast.get_docstring(node)
            if docstring:
                yield node.body[0].lineno, docstring.split("\n\n")[0]


def comments(source: str, suffix: str) -> Iterator[Tuple[int, str]]:
    """Yields the first line and the text of each docstring and block of comments."""
    if suffix == ".py":
        yield from docstrings(source)
    block: List[str] = []
    for number, line in enumerate([*source.splitlines(), ""], 1):
        match = re.match(COMMENT_LINE[suffix], line)
        if match:
            block.append(match[1])
        elif block:
            yield number - len(block), " ".join(block)
            block = []


def is_vague(name: str) -> bool:
    return name in VAGUE_NAMES or re.fullmatch(r"[a-z]+ed", name) is not None


def names(source: str) -> Tuple[List[str], List[str]]:
    """Returns the assigned names and parameters of Python source, and its functions."""
    assignments: List[str] = []
    functions: List[str] = []
    for node in ast.walk(ast.parse(source)):
        if isinstance(node, ast.Name) and isinstance(node.ctx, ast.Store):
            assignments.append(node.id)
        elif isinstance(node, (ast.FunctionDef, ast.AsyncFunctionDef)):
            functions.append(node.name)
            parameters = [parameter.arg for parameter in node.args.args]
            assignments += [name for name in parameters if name not in ("self", "cls")]
    return assignments, functions


def measure_source(source: str, suffix: str) -> Words:
    """Returns the words of a file; Python that does not parse has none."""
    try:
        assignments, functions = names(source) if suffix == ".py" else ([], [])
        blocks = list(comments(source, suffix))
    except SyntaxError:
        return Words([], [], [])
    return Words(
        [sentence for line, text in blocks for sentence in sentences(text, line)],
        assignments,
        functions,
    )


def read_text(path: pathlib.Path) -> str:
    return path.read_text(encoding="utf-8", errors="replace")


def source_files(root: pathlib.Path) -> List[pathlib.Path]:
    """Returns the source files at or below a path."""
    return sorted(
        path
        for path in ([root] if root.is_file() else root.rglob("*"))
        if path.suffix in COMMENT_LINE and not SKIPPED_FOLDERS & set(path.parts)
    )


def measure(paths: Iterable[pathlib.Path]) -> Words:
    """Returns the words of several files together."""
    total = Words([], [], [])
    for path in paths:
        for into, part in zip(total, measure_source(read_text(path), path.suffix)):
            into.extend(part)  # type: ignore[attr-defined]
    return total


def print_worst(paths: Iterable[pathlib.Path], limit: int) -> None:
    """Prints the sentences with the largest shares, each with its place."""
    rows = [
        (sentence.share, f"{path}:{sentence.line}", sentence.text)
        for path in paths
        for sentence in measure_source(read_text(path), path.suffix).sentences
    ]
    for share, location, text in sorted(rows, reverse=True)[:limit]:
        print(f"    {share:.2f} {location} {text}")


def git(*args: str) -> str:
    """Returns what a command of git prints, or "" if it fails."""
    return subprocess.run(
        ["git", *args], capture_output=True, text=True, check=False
    ).stdout


def print_changes(base: str, limit: int) -> None:
    """Prints the vague sentences and names of changed files that `base` lacks."""
    rows: List[Tuple[float, str, str]] = []
    vague: List[str] = []
    for line in git("diff", "--name-only", "--diff-filter=AMR", base).splitlines():
        path = pathlib.Path(line)
        if path.suffix in COMMENT_LINE and path.is_file():
            now = measure_source(read_text(path), path.suffix)
            then = measure_source(git("show", f"{base}:{line}"), path.suffix)
            texts = {sentence.text for sentence in then.sentences}
            rows += [
                (sentence.share, f"{line}:{sentence.line}", sentence.text)
                for sentence in now.sentences
                if sentence.is_vague and sentence.text not in texts
            ]
            new_names = {*now.names, *now.functions} - {*then.names, *then.functions}
            vague += [f"{line}: {name}" for name in sorted(filter(is_vague, new_names))]
    for share, location, text in sorted(rows, reverse=True)[:limit]:
        print(f"{share:.2f} {location} {text}")
    for text in vague[:limit]:
        print(f"vague name: {text}")


def main() -> None:
    parser = argparse.ArgumentParser(
        prog="python3 -m tools.words",
        description=__doc__,
        formatter_class=argparse.RawDescriptionHelpFormatter,
    )
    parser.add_argument("paths", metavar="PATH", nargs="*", type=pathlib.Path)
    parser.add_argument(
        "--base", metavar="REVISION", help="compare the files with this revision"
    )
    parser.add_argument(
        "--worst", metavar="N", type=int, default=0, help="print the worst N sentences"
    )
    args = parser.parse_args()
    if not args.paths and not args.base:
        parser.error("name a PATH, or a revision by --base")
    if args.base:
        print_changes(args.base, args.worst or 20)
    for root in args.paths:
        files = source_files(root)
        print(f"{str(root):12} {measure(files)}")
        print_worst(files, args.worst)


if __name__ == "__main__":
    main()
