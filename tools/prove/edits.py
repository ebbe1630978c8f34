"""Tries edits of the code that the prover must refuse, each on a copy of its crate.

    python3 -m tools.prove.edits [--all] [CRATE..]

The gate tries crates/NAME/must-fail/*.edit. With --all the edits of more functions in
crates/NAME/more-edits.txt are tried too, each after a line `== NAME`: run it for each
crate that you change. An edit has lines `file: PATH`, and then pairs of lines `old: TEXT`
and `new: TEXT`, where TEXT stands once in that file.

The edited function is checked against its contract and the contracts of what it calls;
a line `only: PATH` names another function to check. Edits of different functions are
tried in one check, and an edit that its own function does not refuse there is tried by
itself. If that much is still proved, or no function is edited, the whole crate is
checked. Each edit has a line, and the last line reads `N passed, M failed`. The libraries
below a crate must be built, as tools/build and the gate leave them.
"""
import concurrent.futures
import pathlib
import re
import shutil
import subprocess
import sys
import tempfile
from typing import Dict, Iterator, List, NamedTuple, Optional, Sequence, Tuple

from tests.support.counts import report_counts
from tools.prove.prover import (
    CRATES,
    PARTS,
    Libraries,
    below,
    libraries_of,
    may_be_used,
    prover_command,
    workers,
)

# last words of a successful and of a failed check
PROVED_MARK = "logic=proved"
NOT_PROVED = "logic=not-proved"
SOME_PROVED = re.compile(r"only=(\d+) proved=(\d+)")
# names that a text of the code or of a definition lacks: the edit was not tried
UNREAD = re.compile(
    r"(\./)?(src|specs)/\S+ error: .*(is not in scope|has no field|is missing|expected the end)"
)
FUNCTION = re.compile(r"( *)(pub(\([a-z]+\))? )?(const )?fn (\w+)")
HEAD = re.compile(r"impl(?:<(.*?)>)? (?:([\w:]+)(?:<(.*)>)? for )?(\w+)")
# what the prover says of a function that a crate lacks
NO_FUNCTION = re.compile(r"\S+: error: `\w+` has no function .*")


class EditError(Exception):
    """The edit can't be tried."""


class EditText(NamedTuple):
    """The name of an edit, and its lines."""

    name: str
    text: str


class Edit(NamedTuple):
    """What an edit changes, as files, texts in them and other texts, and the function
    that it changes, if it changes one."""

    name: str
    changes: List[Tuple[str, str, str]]
    function: Optional[str]

    def change(self, folder: pathlib.Path, texts: Dict[str, str]) -> None:
        """Makes the changes in these texts, which stand in place of files of a
        folder."""
        for file, old, new in self.changes:
            text = texts.get(file) or (folder / file).read_text()
            if text.count(old) != 1:
                raise EditError(
                    f"an old text stands {text.count(old)} times in {file}, and not once: {old}"
                )
            texts[file] = text.replace(old, new)


# The function that a line stands in.


def module_of(path: str) -> List[str]:
    """The module that a file of src/ is."""
    parts = list(pathlib.PurePath(path).with_suffix("").parts[1:])
    return [] if parts in (["lib"], ["main"]) else parts


def type_of(head: str) -> Optional[Tuple[str, str]]:
    """The type of an `impl`, and how the prover names the `impl`: by its type, or by
    the type, the trait and the words of the trait's type."""
    match = HEAD.match(head)
    if not match:
        return None
    parameters, trait, of, name = match.groups()
    if trait is None:
        return name, name
    words = [
        word
        for word in re.findall(r"(?<!')\b\w+", of or "")
        if word not in re.findall(r"\w+", parameters or "")
    ]
    return name, name + trait.rpartition("::")[2] + "".join(
        word[0].upper() + word[1:] for word in words
    )


def module_of_type(folder: pathlib.Path, name: str, path: str) -> List[str]:
    """Returns the module that declares a type, because the prover names methods by it.
    If no module or several declare the type, the module of the edited file."""
    declaration = re.compile(
        rf"^(?:pub(?:\(.*?\))? )?(?:struct|enum|union) {name}\b", re.M
    )
    files = [
        path
        for path in (folder / "src").rglob("*.rt")
        if declaration.search(path.read_text())
    ]
    return module_of(str(files[0].relative_to(folder)) if len(files) == 1 else path)


def function_at(folder: pathlib.Path, path: str, offset: int) -> Optional[str]:
    """The function of a crate whose body has a place of a file, by the path that the
    prover knows."""
    name = None
    depth = 0
    for line in reversed((folder / path).read_text()[:offset].split("\n")):
        match = FUNCTION.match(line)
        if match and name is None:
            name = match[5]
            depth = len(match[1])
        elif name is not None and line.startswith("impl") and depth:
            type_names = type_of(line)
            module = (
                module_of_type(folder, type_names[0], path)
                if type_names
                else module_of(path)
            )
            return "::".join([*module, *(type_names or [])[1:], name])
        elif line.startswith("}") and name is None:
            return None
        if name is not None and depth == 0:
            return "::".join([*module_of(path), name])
    return None


def read_edit(source: EditText, folder: pathlib.Path) -> Edit:
    """Parses an edit of the crate in a folder. Raises EditError if the edit cannot be
    applied."""
    file = ""
    old = ""
    only = None
    changes = []
    for line in source.text.split("\n"):
        word, _, text = line.partition(": ")
        if word == "file":
            file = text.strip()
        elif word == "only":
            only = text.strip()
        elif word == "old":
            old = text
        elif word == "new" or line == "new:":
            if not old:
                raise EditError("a line `new: TEXT` has no line `old: TEXT` before it")
            changes.append((file, old, text))
    if not changes:
        raise EditError("it has no pair of lines `old: TEXT` and `new: TEXT`")
    edit = Edit(source.name, changes, only)
    edit.change(folder, {})
    file, old, _ = changes[0]
    text = (folder / file).read_text()
    return edit._replace(function=only or function_at(folder, file, text.index(old)))


# Checks.


class Prover(NamedTuple):
    """How a crate is checked: the words of the check, and where it keeps its work."""

    name: str
    words: Sequence[str]
    kept_folder: str

    def lines(self, edits: Sequence[Edit], functions: Sequence[str]) -> List[str]:
        """Checks functions (default: all) in an edited copy of the crate, and returns
        the prover's lines."""
        texts: Dict[str, str] = {}
        for edit in edits:
            edit.change(CRATES / self.name, texts)
        with tempfile.TemporaryDirectory(prefix="edit-") as room:
            for part in PARTS:
                if (CRATES / self.name / part).is_dir():
                    shutil.copytree(CRATES / self.name / part, f"{room}/{part}")
            for path, text in texts.items():
                pathlib.Path(room, path).write_text(text)
            only = [word for function in functions for word in ("--only", function)]
            result = subprocess.run(
                [*self.words, "--incremental", self.kept_folder, *only],
                cwd=room,
                stdin=subprocess.DEVNULL,
                stdout=subprocess.PIPE,
                stderr=subprocess.STDOUT,
                text=True,
                errors="replace",
            )
        lines = result.stdout.rstrip("\n").split("\n")
        if NO_FUNCTION.match(lines[-1]):
            raise EditError(
                f"a line `only: PATH` must name the function that it changes: {lines[-1]}"
            )
        unread = next((line for line in lines if UNREAD.match(line)), None)
        if unread:
            raise EditError(f"the edited text can't be read: {unread}")
        return lines


def first_told(lines: Sequence[str]) -> str:
    """Returns the first error about an unproved item, with its place if it has one;
    notes and warnings are skipped."""
    begins = (
        r"(note: )?\S+:\d+:\d+: (?!note: |warning: )",
        r"fn \S+: (no proof|not proved)",
    )
    return next(
        (line for begin in begins for line in lines if re.match(begin, line)), ""
    )


def together(
    edits: Sequence[Edit], folder: pathlib.Path
) -> Tuple[List[Edit], List[Edit]]:
    """Edits of different functions that can be made at once, and the others."""
    texts: Dict[str, str] = {}
    chosen: List[Edit] = []
    for edit in edits:
        new_texts = dict(texts)
        try:
            edit.change(folder, new_texts)
        except EditError:
            continue
        if edit.function and edit.function not in [
            edit_chosen.function for edit_chosen in chosen
        ]:
            chosen.append(edit)
            texts = new_texts
    return chosen, [edit for edit in edits if edit not in chosen]


def own_error(lines: Sequence[str], function: str) -> str:
    """The first error in a function's own proof files, but for one that says no more
    than that another proof is not admitted."""
    begin = re.compile(
        rf"(\./)?proofs/{function.replace('::', '/')}/\w+\.antt:\d+:\d+: error: (?!.*not admitted)"
    )
    return next((line for line in lines if begin.match(line)), "")


def refused_together(prover: Prover, edits: Sequence[Edit]) -> Dict[str, str]:
    """What the prover says against those edits that their own functions refuse, if all
    are made at once, or half of them at a time where a check of all comes to
    nothing."""
    if len(edits) < 2:
        return {}
    try:
        lines = prover.lines(edits, [edit.function for edit in edits if edit.function])
    except EditError:
        lines = [""]
    if not SOME_PROVED.match(lines[-1]):
        half = len(edits) // 2
        return {
            **refused_together(prover, edits[:half]),
            **refused_together(prover, edits[half:]),
        }
    refusals = {}
    for edit in edits:
        begin = f"fn {prover.name}::{edit.function}: "
        message = next(
            (line[len(begin) :] for line in lines if line.startswith(begin)), ""
        )
        error = own_error(lines, edit.function or "")
        if message.startswith(("no proof", "not proved")) and (
            "did not prove" in message or "it calls" not in message or error
        ):
            refusals[edit.name] = f"{edit.function}: {error or message}"
    return refusals


def refusal(prover: Prover, edit: Edit) -> Optional[str]:
    """What the prover says against an edit, or None if the crate is still proved."""
    if edit.function:
        lines = prover.lines([edit], [edit.function])
        counts = SOME_PROVED.match(lines[-1])
        if counts and int(counts[2]) < int(counts[1]):
            return f"{edit.function}: {first_told(lines)}"
    lines = prover.lines([edit], [])
    if lines[-1].startswith(NOT_PROVED):
        return f"the whole crate: {first_told(lines)}"
    if lines[-1].startswith(PROVED_MARK):
        return None
    raise EditError(f"it did not come to a proof: {first_told(lines) or lines[-1]}")


def answers_of(
    prover: Prover, edits: Sequence[Edit]
) -> Iterator[Tuple[str, Optional[str], str]]:
    """Yields for each edit of a crate its name, the prover's error (None if it is still
    proved), and the line to print."""
    edits_left = list(edits)
    while edits_left:
        chosen, edits_left = together(edits_left, CRATES / prover.name)
        chosen, edits_left = (chosen, edits_left) if chosen else (edits_left, [])
        refusals = refused_together(prover, chosen)
        for edit in chosen:
            try:
                message = refusals.get(edit.name) or refusal(prover, edit)
                text = (
                    f"refused: {message[:200]}"
                    if message
                    else "NOT REFUSED: the crate is still proved"
                )
            except (EditError, OSError) as fault:
                message = None
                text = f"BAD EDIT: {fault}"
            yield edit.name, message, text


def try_edits(
    libraries: Libraries, name: str, sources: Sequence[EditText]
) -> Iterator[bool]:
    """Tries the edits of a crate, each check over what earlier ones kept, and prints a
    line for each edit."""
    edits = []
    for source in sources:
        try:
            edits.append(read_edit(source, CRATES / name))
        except (EditError, OSError) as fault:
            print(f"edit {name}/{source.name}: BAD EDIT: {fault}", flush=True)
            yield False
    with tempfile.TemporaryDirectory(prefix="edits-") as folder:
        for edit, message, text in answers_of(
            Prover(name, prover_command(libraries, "check", name), folder), edits
        ):
            print(f"edit {name}/{edit}: {text}", flush=True)
            yield message is not None


def edits_of_gate(name: str) -> List[EditText]:
    """Returns the edits of a crate that the gate tries."""
    paths = sorted((CRATES / name / "must-fail").glob("*.edit"))
    return [EditText(path.stem, path.read_text()) for path in paths]


def more_edits(name: str) -> List[EditText]:
    """Returns the other edits of a crate."""
    path = CRATES / name / "more-edits.txt"
    sections = re.split(r"(?m)^== ", path.read_text())[1:] if path.exists() else []
    return [EditText(*section.split("\n", 1)) for section in sections]


def main(words: List[str]) -> int:
    if "-h" in words or "--help" in words:
        print(__doc__.strip())
        return 0
    libraries = libraries_of()
    names = [word for word in words if word != "--all"]
    strange = [name for name in names if name not in libraries]
    if strange:
        print(f"edits: no crate {strange[0]} stands in crates.txt", file=sys.stderr)
        return 2
    edits = {
        name: edits_of_gate(name) + (more_edits(name) if "--all" in words else [])
        for name in names or libraries
    }
    for name in libraries:
        is_needed = any(
            name in below(libraries, other_name)
            for other_name, edits_found in edits.items()
            if edits_found
        )
        if is_needed and not may_be_used(libraries, name):
            print(
                f"edits: {name} is not built, or older than its sources: run tools/build",
                file=sys.stderr,
            )
            return 1
    with concurrent.futures.ThreadPoolExecutor(workers()) as pool:
        # those with the most edits first, since a crate's are tried in turn
        longest = sorted(
            (item for item in edits.items() if item[1]),
            key=lambda item_of_crate: -len(item_of_crate[1]),
        )
        answers = [
            answer
            for answers in pool.map(
                lambda item_of_crate: list(try_edits(libraries, *item_of_crate)),
                longest,
            )
            for answer in answers
        ]
    return report_counts(sum(answers), len(answers) - sum(answers))


if __name__ == "__main__":
    sys.exit(main(sys.argv[1:]))
