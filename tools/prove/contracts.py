"""Writes what each contract is called and says, and where contracts say nothing, as a
page in Markdown.

    python3 -m tools.prove.contracts [CRATE ..] > CONTRACTS.md

- The contracts: each public function with the names of its clauses, and what its `///`
  lines say. `-` is a clause without a name.
- What want of memory leaves: each of these calls that can answer that memory ran out,
  takes an allocator, or may wait, read off its signature. A command says by its exit
  status that memory ran out. What a call is lent by `&` stays as it was, and what is
  moved in is dropped. What it is lent by `&mut` may have changed; the clauses that are
  named speak of errors. tests/test_clauses.py finds each such call that another crate
  names in these rows.
- Functions without a clause, of which any body is proved, and what fails for a wrong
  one; and wrong bodies that contracts let through. These are kept by hand in
  tools/prove/tested.toml; tests/test_clauses.py compares the functions with those that
  tools/prove/clauses.py finds.
- Wrong bodies that the prover refuses: the edits that the gate tries, by name.

docs/THEOREMS.md has the sentences that one reads first.
"""
import pathlib
import re
import sys
import tomllib
from typing import Dict, Iterator, List, NamedTuple, Set

from tools.prove.clauses import (
    BLOCK,
    CRATES,
    HEAD,
    NAMES,
    TOP,
    contract_of,
    crates_given,
    without_parameters,
)

TESTED_FILE = TOP / "tools" / "prove" / "tested.toml"
CLAUSE = re.compile(r"^\s*ensures(?: (\w+))? \{", re.MULTILINE)
# a clause that speaks of an answer that is an error
OF_ERRORS = re.compile(r"\b(?:IfErr|OnErr|OnFailure|IfFault)\b")
ENUM = re.compile(r"enum (\w+)[^{]*\{(.*?)\n\}", re.DOTALL)
STRUCT = re.compile(r"^pub struct (\w+)[^;{(]*\{(.*?)\n\}", re.DOTALL | re.MULTILINE)
OPEN_FIELD = re.compile(r"^    pub \w+: (.*),$", re.MULTILINE)
VARIANT = re.compile(
    r"^    (\w+)(?:\((.*?)\)| \{(.*?)\n    \}| = \d+)?,?$", re.DOTALL | re.MULTILINE
)
# a runtime that waits, a stream, or who answers
WAITS = re.compile(
    r"\w: (?:[\w:]+ \+ )*(?:io::)?"
    r"(?:Wait|Threads|Read|BufRead|Write|Input|Output|Files|Team|Port|Connection|Machine)\b"
)
ALLOCATOR = re.compile(r"\balloc: Global\b")
PASSED_ON = re.compile(r"^pub use ([^;]+);", re.MULTILINE)
OPEN_MODULE = re.compile(r"^pub mod (\w+);", re.MULTILINE)
CHANGED_PARAMETER = re.compile(r"(\w+): &mut|&mut (self)")
# what says by itself that memory ran out
MEMORY = {"Memory", "AllocError"}


class Contract(NamedTuple):
    """A public function: its name with that of its type, its `///` lines, its
    signature, and its clauses by name."""

    name: str
    words: str
    signature: str
    clauses: Dict[str, str]


def words_above(lines: List[str], at: int) -> str:
    """What the `///` lines above a function say."""
    lines_found: List[str] = []
    for line in reversed(lines[:at]):
        text = line.strip()
        if text.startswith("///"):
            lines_found.insert(0, text[3:].strip())
        elif not text.startswith("#["):
            break
    return " ".join(lines_found)


def clauses_in(contract: str) -> Dict[str, str]:
    """Returns the clauses of a contract by name; unnamed ones are `-`, `-2`, and so
    on."""
    clauses: Dict[str, str] = {}
    places = list(CLAUSE.finditer(contract))
    for start, after in zip(
        places, [*(match.start() for match in places[1:]), len(contract)]
    ):
        name = start[1] or ("-" if "-" not in clauses else f"-{len(clauses) + 1}")
        clauses[name] = contract[start.end() : after]
    return clauses


def contracts_in(path: pathlib.Path) -> Iterator[Contract]:
    """The public functions of a file, and the functions of its public traits, in
    order."""
    lines = path.read_text(encoding="utf-8").split("\n")
    kind = ""
    is_open = False
    for at, line in enumerate(lines):
        block = BLOCK.match(line)
        if block:
            head = without_parameters(block[2])
            is_open = block[1] == "pub trait"
            match = NAMES.match(head)
            kind = (
                re.split(r"[:<{ ]", head)[0]
                if block[1] != "impl"
                else match["type"]
                if match
                else ""
            )
        elif line.startswith("}"):
            kind = ""
            is_open = False
        head_of = HEAD.match(line)
        if head_of and (
            line.lstrip().startswith("pub fn")
            or line.lstrip().startswith("pub const fn")
            or is_open
        ):
            contract = contract_of(lines, at)
            signature = re.split(r"\n\s*(?:ensures|requires|where)\b", contract)[0]
            name = f"{kind}::{head_of[2]}" if head_of[1] and kind else head_of[2]
            yield Contract(
                name,
                words_above(lines, at),
                re.sub(r"\s+", " ", signature).strip(" {;"),
                clauses_in(contract),
            )


def contracts_of(crate: str) -> List[Contract]:
    """The functions that a crate passes on, of its own and of its types, file by file:
    those of its head, of its open modules, and those that the head names."""
    root = CRATES / crate / "src"
    head = "".join(
        path.read_text(encoding="utf-8")
        for path in (root / "lib.rt", root / "main.rt")
        if path.exists()
    )
    names = {
        name
        for exports in PASSED_ON.findall(head)
        for name in re.findall(r"\w+", exports)
    }
    open_modules = set(OPEN_MODULE.findall(head))
    contracts = [
        (path.stem, contract)
        for path in sorted(root.rglob("*.rt"))
        for contract in contracts_in(path)
    ]
    return [
        contract._replace(name=f"{module}::{contract.name}")
        if module in open_modules and "::" not in contract.name
        else contract
        for module, contract in contracts
        if module in {"lib", *open_modules} or contract.name.partition("::")[0] in names
    ]


def memory_types() -> Set[str]:
    """The types that can say that memory ran out: enums with such a variant, or with
    one that holds such a type, and structs with an open field that does."""
    texts = [path.read_text(encoding="utf-8") for path in CRATES.glob("*/src/**/*.rt")]
    enums = [enum for text in texts for enum in ENUM.findall(text)]
    structs = [
        (name, OPEN_FIELD.findall(body))
        for text in texts
        for name, body in STRUCT.findall(text)
    ]
    type_names = set(MEMORY)
    grown = True
    while grown:
        new_names = {
            name
            for name, body in enums
            if name not in type_names
            and any(
                variant[1] in MEMORY
                or type_names & set(re.findall(r"\w+", f"{variant[2]} {variant[3]}"))
                for variant in VARIANT.finditer(body)
            )
        }
        new_names |= {
            name
            for name, kinds in structs
            if name not in type_names
            and type_names & set(re.findall(r"\w+", str(kinds)))
        }
        grown = bool(new_names)
        type_names |= new_names
    return type_names


def answer_of(signature: str) -> str:
    """The type of a function's answer."""
    return signature.rpartition(") -> ")[2] if ") -> " in signature else ""


def wants_memory(types: Set[str], signature: str) -> str:
    """Returns whether a call can say that memory ran out: by its answer, by its exit
    status, or not."""
    words = set(re.findall(r"\w+", answer_of(signature)))
    is_command = "u8" in words and re.search(r"\berrors: &mut", signature)
    if types & words:
        return "yes"
    return (
        "by its status"
        if is_command and (ALLOCATOR.search(signature) or "Memory>" in signature)
        else "no"
    )


def contract_lines(crate: str) -> Iterator[str]:
    for contract in contracts_of(crate):
        clauses = ", ".join(contract.clauses) or "no clause"
        yield f"- `{contract.name}` ({clauses}): {contract.words or 'see its trait.'}"


def memory_rows(crates: List[str]) -> Iterator[str]:
    """A row of each call that can want memory, takes an allocator, or waits."""
    types = memory_types()
    for crate in crates:
        for contract in contracts_of(crate):
            wants = wants_memory(types, contract.signature)
            waits = bool(WAITS.search(contract.signature))
            if wants == "no" and not waits and not ALLOCATOR.search(contract.signature):
                continue
            mutable_names = ", ".join(
                f"`{name or this}`"
                for name, this in CHANGED_PARAMETER.findall(contract.signature)
            )
            speak = ", ".join(
                name
                for name, text in contract.clauses.items()
                if OF_ERRORS.search(text)
            )
            yield (
                f"| `{crate}` | `{contract.name}` | {wants} | {'may' if waits else 'no'} | {mutable_names} "
                f"| {speak} |"
            )


def edits_of(crate: str) -> List[str]:
    """The names of the edits of a crate that the gate tries."""
    return [path.stem for path in sorted((CRATES / crate / "must-fail").glob("*.edit"))]


def page(crates: List[str]) -> Iterator[str]:
    """The lines of the page."""
    exceptions = tomllib.loads(TESTED_FILE.read_text(encoding="utf-8"))
    yield "# Contracts"
    for crate in crates:
        yield from ("", f"## `{crate}`", "", *contract_lines(crate))
    yield from (
        "",
        "## What want of memory leaves",
        "",
        "| crate | call | can say that memory ran out | waits | may have changed | clauses of errors |",
        "|---|---|---|---|---|---|",
        *memory_rows(crates),
    )
    yield from (
        "",
        "## Functions without a clause",
        "",
        "| crate | functions | what fails for a wrong body |",
        "|---|---|---|",
    )
    for row in exceptions["without_clause"]:
        if row["crate"] in crates:
            yield f"| `{row['crate']}` | {', '.join(f'`{name}`' for name in row['functions'])} | {row['fails']} |"
    yield from (
        "",
        "## Wrong bodies that the contracts let through",
        "",
        "| crate | body | why it is right, or what refuses it |",
        "|---|---|---|",
    )
    for row in exceptions["let_through"]:
        if set(row["crates"]) & set(crates):
            yield f"| {', '.join(f'`{name}`' for name in row['crates'])} | {row['body']} | {row['why']} |"
    yield from ("", "## Wrong bodies that the prover refuses", "")
    for crate in crates:
        if edits_of(crate):
            yield f"- `{crate}`: {', '.join(f'`{name}`' for name in edits_of(crate))}"
    yield from (
        "",
        "Refused by the form of a proof before a clause is asked, so they say less than the others:",
        "",
    )
    for crate, names in exceptions["refused_by_form"].items():
        if crate in crates:
            yield f"- `{crate}`: {', '.join(f'`{name}`' for name in names)}"


def main(args: List[str]) -> int:
    if args in (["-h"], ["--help"]):
        print(__doc__.strip())
        return 0
    print("\n".join(page(crates_given(args))))
    return 0


if __name__ == "__main__":
    sys.exit(main(sys.argv[1:]))
