"""How large the tree is, by figures that may fall, and rise only by an edit of
tests/size.toml.

    python3 -m tools.size            prints each figure beside the one that is kept
    python3 -m tools.size --lower    keeps the figures that have fallen

The figures are: in how many files of crates/ each command of an agent is named; how
many names of types two crates or more have, and names of classes two modules of the
lab; how many modules `arena-lab --help` imports; the statements of Python, docstrings
aside; the lines of .rt and .antt; the words of README.md and of all documents; and the
vague sentences, names and functions of each folder (tools/words.py). A commit that
raises one says what it is worth.
"""
import ast
import collections
import pathlib
import re
import subprocess
import sys
import tomllib
from typing import Dict, Iterable, Iterator, List, Set, Tuple

from tools import words

TOP = pathlib.Path(__file__).resolve().parents[1]
RECORD = TOP / "tests" / "size.toml"
COMMANDS = ("Enter", "Look", "Write", "Depart", "Accuse", "Leave")
TYPE = re.compile(
    r"^\s*(?:pub(?:\(\w+\))? )?(?:struct|enum|trait|record|data) (?:pub )?(\w+)", re.M
)
HELP = (
    "import sys; import arena_lab.__main__ as lab; lab.parser(names=()).format_help(); "
    "print(sum(it.split('.')[0] == 'arena_lab' for it in sys.modules))"
)

# these are kept as the next multiple, so that mending a sentence takes no edit
STEPS = {"statements": 100, "lines": 100, "words": 50}
README = TOP / "README.md"
FOLDERS = ("arena_lab", "tests", "tools", "bench", "examples", "crates")

Figures = Dict[str, Dict[str, float]]


def tracked_files(*patterns: str) -> List[pathlib.Path]:
    """Lists the repository's files that match git patterns; outside of a clone, all
    existing files."""
    result = subprocess.run(
        [
            "git",
            "-C",
            str(TOP),
            "ls-files",
            "--cached",
            "--others",
            "--exclude-standard",
            "--",
            *patterns,
        ],
        stdout=subprocess.PIPE,
        stderr=subprocess.DEVNULL,
        text=True,
    )
    return [
        TOP / line
        for line in sorted(set(result.stdout.split("\n")))
        if line and (TOP / line).is_file()
    ]


def documents() -> List[pathlib.Path]:
    return tracked_files("*.md")


def programs() -> List[pathlib.Path]:
    """Lists Python files, including scripts in tools/ without an ending."""
    return [
        path
        for path in tracked_files("*.py", "tools/*")
        if path.suffix == ".py"
        or path.read_bytes().startswith(b"#!/usr/bin/env python3")
    ]


def texts(paths: Iterable[pathlib.Path]) -> Iterator[Tuple[pathlib.Path, str]]:
    return ((path, path.read_text(encoding="utf-8")) for path in paths)


def files_that_name(words: Iterable[str]) -> Dict[str, float]:
    """In how many files of crates/ each word stands."""
    counts = {word: 0.0 for word in words}
    for _, text in texts(
        tracked_files("crates/*.rt", "crates/*.antt", "crates/*.edit")
    ):
        names = set(re.findall(r"\w+", text))
        for word in counts:
            counts[word] += word in names
    return counts


def shared_names(owners: Dict[str, Set[str]]) -> float:
    """Returns how many names have two owners or more."""
    return sum(len(owner) > 1 for owner in owners.values())


def shared_types() -> float:
    """Returns how many names of types stand in two crates or more."""
    owners: Dict[str, Set[str]] = collections.defaultdict(set)
    for path, text in texts(
        tracked_files("crates/*/src/*.rt", "crates/*/specs/*.antt")
    ):
        for name in TYPE.findall(text):
            owners[name].add(path.relative_to(TOP).parts[1])
    return shared_names(owners)


def shared_classes() -> float:
    """Returns how many names of classes stand in two modules of the lab or more; the
    tables of the hall's pages aside."""
    owners: Dict[str, Set[str]] = collections.defaultdict(set)
    for path, text in texts(tracked_files("arena_lab/*.py")):
        name = str(path.relative_to(TOP))
        if "/migrations/" not in name:
            for node in ast.walk(ast.parse(text)):
                if isinstance(node, ast.ClassDef) and node.name != "Meta":
                    owners[node.name].add(name)
    return shared_names(owners)


def modules_of_help() -> float:
    """Returns how many modules of the lab the help of all commands imports."""
    return float(
        subprocess.check_output([sys.executable, "-c", HELP], cwd=TOP, text=True)
    )


def lines(*patterns: str) -> float:
    return sum(text.count("\n") for _, text in texts(tracked_files(*patterns)))


def statements(text: str) -> int:
    """Returns how many statements a file of Python has, docstrings aside."""
    nodes = [node for node in ast.walk(ast.parse(text)) if isinstance(node, ast.stmt)]
    return sum(
        not (isinstance(node, ast.Expr) and isinstance(node.value, ast.Constant))
        for node in nodes
    )


def word_count(paths: Iterable[pathlib.Path]) -> float:
    return sum(len(text.split()) for _, text in texts(paths))


def vague_words() -> Figures:
    """Counts the vague sentences, names and functions of each folder. Counts, and not
    shares, because a share rises where clear sentences are deleted."""
    counts: Figures = {
        f"vague {kind}": {} for kind in ("sentences", "names", "functions")
    }
    for folder in FOLDERS:
        files = words.source_files(TOP / folder)
        repository_files = {
            path for path in tracked_files(folder) if path.suffix in words.COMMENT_LINE
        }
        vague = words.measure(
            path for path in files if path in repository_files
        ).vague()
        for table, count in zip(counts.values(), vague):
            table[folder] = count
    del counts["vague names"]["crates"], counts["vague functions"]["crates"]
    return counts


def figures() -> Figures:
    """Each figure, by its table and name."""
    return {
        "files that name a command": files_that_name(COMMANDS),
        "names": {
            "types of two crates": shared_types(),
            "classes of two modules": shared_classes(),
        },
        "imports": {"modules of arena-lab --help": modules_of_help()},
        "statements": {"py": sum(statements(text) for _, text in texts(programs()))},
        "lines": {"rt": lines("*.rt"), "antt": lines("*.antt")},
        "words": {
            "README.md": word_count([README]),
            "all documents": word_count(documents()),
        },
        **vague_words(),
    }


def recorded_figures() -> Figures:
    return tomllib.loads(RECORD.read_text(encoding="utf-8"))


def risen(now: Figures, then: Figures) -> List[str]:
    """Returns a line for each figure that exceeds its recorded value or has none."""
    return [
        f"{table}, {name}: {value:g}, and {then[table][name]:g} is kept"
        if name in then.get(table, {})
        else f"{table}, {name}: {value:g}, and none is kept"
        for table, names in now.items()
        for name, value in names.items()
        if value > then.get(table, {}).get(name, -1)
    ]


def round_up(table: str, value: float) -> float:
    """The figure that is kept for a value."""
    step = STEPS.get(table)
    return -(-value // step) * step if step else value


def lower_figures(text: str, now: Figures) -> str:
    """Returns the text of the recorded figures with lower values, and without deleted
    files. Comments stay."""
    table = ""
    lines_kept = []
    for line in text.split("\n"):
        head = re.fullmatch(r"\[\"?([^\"]*)\"?\]", line)
        table = head[1] if head else table
        # a test measures the figures of the other tables
        row = table in now and re.fullmatch(r"\"([^\"]+)\" = ([\d.]+)(.*)", line)
        if row and row[1] not in now[table]:
            continue
        if row and round_up(table, now[table][row[1]]) < float(row[2]):
            line = f'"{row[1]}" = {round_up(table, now[table][row[1]]):g}{row[3]}'
        lines_kept.append(line)
    return "\n".join(lines_kept)


def main() -> int:
    if sys.argv[1:] not in ([], ["--lower"]):
        print((__doc__ or "").strip())
        return 0 if sys.argv[1:] in (["-h"], ["--help"]) else 2
    now = figures()
    then = recorded_figures()
    if sys.argv[1:]:
        RECORD.write_text(
            lower_figures(RECORD.read_text(encoding="utf-8"), now), encoding="utf-8"
        )
    for table, names in now.items():
        for name, value in names.items():
            print(
                f"{table}, {name}: {value:g} ({then.get(table, {}).get(name, 'not kept')})"
            )
    return 0


if __name__ == "__main__":
    sys.exit(main())
