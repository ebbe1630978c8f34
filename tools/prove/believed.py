"""Counts what a reader must believe: the definitions that the headlines reach, and
their lines.

    python3 -m tools.prove.believed [--names]

A headline is a definition of some specs/ that the contract of a law states. The
definitions that it uses, those that these use, and so on, are all that its statement
means, beside the types of the code and the words of the prover's library. A variable
with the name of a definition of its file counts as that definition, so the numbers are
rather too large. For each headline a line of a table gives how many definitions it
reaches, in how many files, and how many lines they have, comments and blank lines
aside. With --names each file and its definitions are named too. docs/TRUST.md has the
table, and a unit test compares them.
"""
import functools
import pathlib
import re
import sys
from typing import Dict, Iterable, Iterator, List, NamedTuple, Set, Tuple

CRATES = pathlib.Path(__file__).resolve().parents[2] / "crates"
HEADLINES = {
    "a session of a contest: `contests::equal_pasts_are_sent_equal_bytes` of `bhs_theorems_isolation`": (
        "bhs_theorems_isolation",
        "ContestMet",
        "EqualPastsAreSentEqualBytes",
    ),
    "calls of rehearsals: `rehearsals::equal_pasts_are_answered_alike` of `bhs_theorems_isolation`": (
        "bhs_theorems_isolation",
        "Calls",
        "EqualPastsAreAnsweredAlike",
    ),
    "scripts of rehearsals: `rehearsals::equal_pasts_are_sent_equal_bytes` of `bhs_theorems_isolation`": (
        "bhs_theorems_isolation",
        "ScriptHeadline",
        "EqualPastsAreSentEqualBytes",
    ),
    "turns of contests: `contests::every_arrival_in_contests` of `bhs_theorems_isolation`": (
        "bhs_theorems_isolation",
        "ContestTime",
        "EqualWaitsInContests",
    ),
    "replies to agents: `equal_pasts` of `bhs_model`": (
        "bhs_model",
        "Laws",
        "EqualPasts",
    ),
    "a search of rings by halves: `laws::the_halves_solve_all_rings` of `bhs_protocols`": (
        "bhs_protocols",
        "HalvesLaws",
        "HalvesSolveAllRings",
    ),
    "a search of networks with a map: `laws::two_agents_with_a_map_solve` of `bhs_protocols_mapped`": (
        "bhs_protocols_mapped",
        "MapLaws",
        "TwoAgentsWithAMapSolve",
    ),
}
WORD = re.compile(r"[^\W\d][\w'-]*(?:\.[^\W\d][\w'-]*)*")
BEGINS = re.compile(r"(\s*)(?:abbrev |pub |data |record )+([^\W\d][\w'-]*)")
DATA = re.compile(r"\s*(?:pub )?data ")
CONSTRUCTOR = re.compile(r"\s+(?:pub )?([^\W\d][\w'-]*) :")
IMPORT = re.compile(r"use Rattle\.(\w+)\.specs\.([\w.-]+?)\.\{(.*)\}")

Place = Tuple[str, str, str]  # a crate, a module of its specs, a name


class Definition(NamedTuple):
    lines: List[str]
    words: Set[str]


class Module(NamedTuple):
    definitions: Dict[str, Definition]
    owners: Dict[
        str, str
    ]  # of each name the definition that it belongs to, as a constructor does
    imports: Dict[str, Place]


def without_comment(line: str) -> str:
    return re.sub(r"(^|\s)--( .*)?$", "", line).rstrip()


def imports_in(text: str) -> Dict[str, Place]:
    """Of each name that a module imports from a crate of this repository, where it
    stands."""
    origins = {}
    for crate, module, names in IMPORT.findall(text):
        for name in names.split(", "):
            old, _, new = name.partition(" as ")
            origins[new or old] = (crate, module, old)
    return origins


def blocks(lines: Iterable[str]) -> Iterator[Tuple[str, List[str]]]:
    """The definitions, each with its lines; those inside `module _ ..` have its head in
    front."""
    head: List[str] = []
    name = ""
    block = []
    for line in lines:
        begins = BEGINS.match(line)
        if (
            line.startswith("module _")
            or begins
            and len(begins[1]) <= (2 if head else 0)
        ):
            if name:
                yield name, block
            name, block = (begins[2], [*head, line]) if begins else ("", [])
            if not begins:
                head = [line]
            elif not begins[1]:
                head = []
                block = [line]
        elif name:
            block.append(line)
        elif head:
            head.append(line)
    if name:
        yield name, block


@functools.lru_cache(maxsize=None)
def read_module(crate: str, module: str) -> Module:
    """A file of the specs of a crate."""
    text = (CRATES / crate / "specs" / f"{module.replace('.', '/')}.antt").read_text(
        encoding="utf-8"
    )
    lines = [
        line
        for line in map(without_comment, text.splitlines())
        if line and not line.startswith("use ")
    ]
    definitions = {}
    owners = {}
    for name, block in blocks(lines):
        definitions[name] = Definition(block, set(WORD.findall("\n".join(block))))
        owners[name] = name
        for line in block[1:] if any(DATA.match(line) for line in block) else ():
            constructor = CONSTRUCTOR.match(line)
            if constructor:
                owners.setdefault(constructor[1], name)
    return Module(definitions, owners, imports_in(text))


def reachable(headline: Place) -> Dict[Tuple[str, str], Set[str]]:
    """The definitions that a headline reaches, by module."""
    names_by_module: Dict[Tuple[str, str], Set[str]] = {}
    queue = [headline]
    while queue:
        crate, path, name = queue.pop()
        if path.startswith("declared.") or not (CRATES / crate).is_dir():
            continue  # a type of the code, or a word of the library
        module = read_module(crate, path)
        owner = module.owners.get(name)
        if owner is None or owner in names_by_module.setdefault((crate, path), set()):
            continue
        names_by_module[crate, path].add(owner)
        for word in module.definitions[owner].words:
            first = word.split(".")[0]
            queue.append(module.imports.get(first, (crate, path, first)))
    return {module: names for module, names in names_by_module.items() if names}


def lines_of(module: Tuple[str, str], names: Set[str]) -> int:
    definitions = read_module(*module).definitions
    return sum(len(definitions[name].lines) for name in names)


def table(names_too: bool = False) -> str:
    rows = ["| headline | definitions | files | lines |", "|---|---|---|---|"]
    for title, headline in HEADLINES.items():
        names_by_module = reachable(headline)
        lines = sum(
            lines_of(module, names) for module, names in names_by_module.items()
        )
        rows.append(
            f"| {title} | {sum(map(len, names_by_module.values()))} | {len(names_by_module)} | {lines} |"
        )
        if names_too:
            rows += [
                f"    {module[0]}/{module[1]}: {', '.join(sorted(names))}"
                for module, names in sorted(names_by_module.items())
            ]
    return "\n".join(rows) + "\n"


if __name__ == "__main__":
    if sys.argv[1:] not in ([], ["--names"]):
        sys.exit(__doc__.strip())
    print(table(bool(sys.argv[1:])), end="")
