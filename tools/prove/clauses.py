"""Lists the functions of the crates that have no clause: any body of such a function is
proved to meet its contract.

    python3 -m tools.prove.clauses [CRATE ..]

A clause is an `ensures` of the function itself, or of the method of a trait of this
repository that it implements. `From`, `Clone` and `PartialEq` have theirs in ghost
members beside the method. A clause counts for nothing if all that it says is a ghost
member that is always true there. Not listed are the benchmark and `main`.
tools/prove/tested.toml says of each function in this list which test fails for a wrong
body of it; tests/test_clauses.py compares the two, and tools/prove/contracts.py prints
both.
"""
import pathlib
import re
import sys
from typing import Dict, FrozenSet, Iterator, List, NamedTuple, Optional

TOP = pathlib.Path(__file__).resolve().parents[2]
CRATES = TOP / "crates"
# programs by themselves
LEFT_OUT = {"bhs_bench", "bhs_main"}
# traits of the standard library whose clauses stand in ghost members
WITH_GHOSTS = {"From", "Clone", "PartialEq"}
HEAD = re.compile(r"^( *)(?:pub(?:\([a-z]+\))? )?(?:const )?(?:unsafe )?fn (\w+)")
BLOCK = re.compile(r"^(impl|pub trait|trait|pub\(crate\) trait)\b(.*)")
# a ghost member that is always true
ALWAYS_TRUE = re.compile(r"^    ghost (\w+) = \{ (?:λ [^.]*\. )?(?:⊤|Unit \{0\}) \};")
NAMES = re.compile(r"(?:(?P<trait>[\w:]+)(?:<.*>)? for )?&?(?P<type>\w+)")


class Function(NamedTuple):
    """A function: its crate, its file, its name behind its type's, its clauses, and the
    ghost members beside it that are always true."""

    crate: str
    file: str
    name: str
    trait: Optional[str]
    clauses: List[str]
    empty: FrozenSet[str]


def without_parameters(head: str) -> str:
    """What stands behind `impl`, without the type parameters."""
    if not head.lstrip().startswith("<"):
        return head.strip()
    depth = 0
    for index, letter in enumerate(head):
        depth += (letter == "<") - (letter == ">" and head[index - 1] != "-")
        if letter == ">" and depth == 0:
            return head[index + 1 :].strip()
    return head.strip()


def contract_of(lines: List[str], at: int) -> str:
    """Returns the text from a function's head to its body or final `;`."""
    lines_found = []
    indent = len(lines[at]) - len(lines[at].lstrip())
    for line in lines[at:]:
        lines_found.append(line)
        text = line.rstrip()
        opens = text.endswith("{") and not text.lstrip().startswith(
            ("ensures", "requires")
        )
        if (
            (opens or text.endswith("{}"))
            and len(line) - len(line.lstrip()) == indent
            or text.endswith(";")
        ):
            break
    return "\n".join(lines_found)


def always_true(lines: List[str], at: int) -> FrozenSet[str]:
    """The ghost members that are always true, of the block that begins in this line."""
    block = "\n".join(lines[at:]).partition("\n}")[0].split("\n")
    return frozenset(match[1] for match in map(ALWAYS_TRUE.match, block) if match)


def functions_in(crate: str, path: pathlib.Path) -> Iterator[Function]:
    """The functions of a file, in order."""
    lines = path.read_text().split("\n")
    trait = None
    kind = ""
    empty: FrozenSet[str] = frozenset()
    for at, line in enumerate(lines):
        block = BLOCK.match(line)
        if block:
            head = without_parameters(block[2])
            match = NAMES.match(head)
            is_trait = block[1] != "impl"
            trait = (
                head.split("{")[0].split(":")[0].split("<")[0].strip()
                if is_trait
                else match and match["trait"]
            )
            kind = "" if is_trait else (match["type"] if match else "")
            kind = trait if is_trait else kind
            empty = always_true(lines, at)
        elif line.startswith("}"):
            trait = None
            kind = ""
            empty = frozenset()
        head = HEAD.match(line)
        if head:
            owner = kind if head[1] else ""
            yield Function(
                crate,
                path.stem,
                f"{owner}::{head[2]}" if owner else head[2],
                trait if head[1] else None,
                contract_of(lines, at).split("ensures")[1:],
                empty,
            )


def all_functions(crates: List[str]) -> List[Function]:
    """The functions of these crates."""
    return [
        function
        for crate in crates
        for path in sorted((CRATES / crate / "src").rglob("*.rt"))
        for function in functions_in(crate, path)
    ]


def says_something(function: Function, trait_clauses: Dict[str, List[str]]) -> bool:
    """Returns whether a function has a non-trivial clause, of its own or by its
    trait."""
    if function.clauses:
        return True
    if function.trait in WITH_GHOSTS:
        return not function.empty
    method = f"{(function.trait or '').rpartition('::')[2]}::{function.name.rpartition('::')[2]}"
    return any(
        function.empty.isdisjoint(re.findall(r"\w+", clause))
        for clause in trait_clauses.get(method, [])
    )


def without_clause(crates: List[str]) -> List[Function]:
    """Returns the functions without a clause of their own or of a trait in this
    repository."""
    everywhere = all_functions(
        sorted(path.name for path in CRATES.iterdir() if (path / "src").is_dir())
    )
    trait_clauses = {
        function.name: function.clauses
        for function in everywhere
        if function.trait and function.name.startswith(f"{function.trait}::")
    }
    return [
        function
        for function in everywhere
        if function.crate in crates and not says_something(function, trait_clauses)
    ]


def crates_given(names: List[str]) -> List[str]:
    """Returns the named crates, or by default all crates that are no stand-alone
    programs."""
    return names or [
        path.name
        for path in sorted(CRATES.iterdir())
        if (path / "src").is_dir() and path.name not in LEFT_OUT
    ]


def main(args: List[str]) -> int:
    if args in (["-h"], ["--help"]):
        print(__doc__.strip())
        return 0
    for function in without_clause(crates_given(args)):
        print(f"{function.crate} {function.file} {function.name}")
    return 0


if __name__ == "__main__":
    sys.exit(main(sys.argv[1:]))
