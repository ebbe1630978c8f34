"""A table's folder: a record of what its rows depend on, and the rows, appended one by
one.

Each row has the first digits of the SHA-256 of what stands in it, so that a row that
was edited is told. Its replay is not kept; the row has the replay's SHA-256, and who
plays the run again gets the same.
"""
import contextlib
import csv
import fcntl
import hashlib
import io
import json
import os
import pathlib
import sys
from typing import Any, Dict, Iterable, Iterator, List, Mapping, Optional, Sequence

from arena_lab.play import imports
from arena_lab.play.parallel import own_digests
from arena_lab.support.faults import ArenaError
from arena_lab.sweep.report import FAULTS, MORE_STATES, Row

COLUMNS = (
    "run",
    "network",
    "nodes",
    "links",
    "home",
    "hole",
    "team",
    "agents",
    "scheduler",
    "seed",
    "outcome",
    "moves",
    "lost",
    "commands",
    "events",
    "replay",
    "check",
    "fault",
)
CHECK = COLUMNS.index("check")
RUNS = "runs.csv"
RECORD_FILE = "made.json"
# in the record: what agents have read while they played
READ_KEY = "read"
DIGITS = 16


class TableError(ArenaError):
    """A folder cannot be continued; the text says why, and what to do."""


def line_of(row: Iterable[str]) -> str:
    """A row as a line of a CSV file."""
    text = io.StringIO()
    csv.writer(text, lineterminator="\n").writerow(row)
    return text.getvalue()


def check_of(cells: Sequence[str], columns: Sequence[str] = COLUMNS) -> str:
    """Returns the value of the column `check`: digits of the SHA-256 of the row's other
    cells."""
    index = columns.index(COLUMNS[CHECK])
    text = line_of([*cells[:index], *cells[index + 1 :]])
    return hashlib.sha256(text.encode()).hexdigest()[:DIGITS]


def with_check(cells: Sequence[str], columns: Sequence[str] = COLUMNS) -> List[str]:
    """A row with its check."""
    index = columns.index(COLUMNS[CHECK])
    return [*cells[:index], check_of(cells, columns), *cells[index + 1 :]]


def cells_in(path: pathlib.Path, columns: Sequence[str] = COLUMNS) -> List[List[str]]:
    """Reads the rows of a file. Raises TableError for an invalid row."""
    with path.open(encoding="utf-8", newline="") as file:
        head, *rows = list(csv.reader(file)) or [[]]
    if tuple(head) != tuple(columns):
        raise TableError(
            f"{path}: its first line has other columns than rows of this lab: name another folder"
        )
    for number, cells in enumerate(rows):
        is_whole = len(cells) >= len(columns) and cells[0] == str(number)
        if not is_whole or cells[columns.index(COLUMNS[CHECK])] != check_of(
            cells, columns
        ):
            raise TableError(
                f"{path}: line {number + 2} is not as it was written: name another folder, or remove this "
                "line and all below it, and start the same command again"
            )
    return rows


def check_asked(
    path: pathlib.Path,
    rows: Iterable[List[str]],
    requests: Iterable[List[str]],
    advice: str,
) -> None:
    """Refuses rows of other matches than these. The first cells of a row say of which
    match it is; `other` ends the sentence on a row of another one."""
    expected_rows = iter(requests)
    for number, row in enumerate(rows, 2):
        cells = next(expected_rows, None)
        if cells is None or row[: len(cells)] != cells:
            raise TableError(f"{path}: line {number} is of another {advice}")


def rows_in(path: pathlib.Path) -> List[Row]:
    """The rows of a file by their columns. A row ends with a field for each fault, and
    `faults` has them all."""
    return [row_of(cells) for cells in cells_in(path)]


def row_of(cells: Sequence[str]) -> Row:
    row: Row = dict(zip(COLUMNS, cells))
    faults = [cell for cell in cells[len(COLUMNS) - 1 :] if cell]
    return {**row, FAULTS: faults, MORE_STATES: faults[1:]}


def done_in(path: pathlib.Path, columns: Sequence[str] = COLUMNS) -> int:
    """Returns how many rows a file has. A row that was not written whole is dropped."""
    if not path.exists():
        path.write_text(line_of(columns), encoding="utf-8")
    text = path.read_bytes()
    whole = text[: text.rfind(b"\n") + 1]
    if whole != text:
        path.write_bytes(whole)
    if not whole:
        path.write_text(line_of(columns), encoding="utf-8")
    return len(cells_in(path, columns))


def made_by(program: Optional[str]) -> Dict[str, Any]:
    """Returns the versions of program, lab and Python on which rows may depend."""
    return {
        "lab": own_digests(),
        "program": imports.digest_of(pathlib.Path(program)) if program else "",
        "python": sys.version,
    }


def differences(before: Any, now: Any, name: str = "") -> List[str]:
    """The names of what differs in two records."""
    if isinstance(before, Mapping) and isinstance(now, Mapping):
        keys = sorted({*before, *now}, key=str)
        return [
            difference
            for key in keys
            for difference in differences(before.get(key), now.get(key), str(key))
        ]
    return [] if before == now else [name]


def changed_in(folder: pathlib.Path, record: Mapping[str, Any]) -> List[str]:
    """Returns the names of dependencies that have changed since the folder's record was
    written."""
    before = dict(record_in(folder))
    read_digests: Dict[str, str] = before.pop(READ_KEY, {})
    other_names = [
        name
        for name, digest in read_digests.items()
        if imports.digest_named(name) != digest
    ]
    return differences(before, record) + other_names


def record_in(folder: pathlib.Path) -> Dict[str, Any]:
    """Reads the record of a folder."""
    path = folder / RECORD_FILE
    try:
        record = json.loads(path.read_text(encoding="utf-8"))
        if not isinstance(record, dict):
            raise ValueError
        return record
    except FileNotFoundError:
        raise TableError(
            f"{path}: it is not known of which runs the rows of {folder} are: name another folder"
        ) from None
    except (UnicodeDecodeError, ValueError):
        raise TableError(
            f"{path}: it is not as it was written: name another folder"
        ) from None


def prepare_table(
    folder: pathlib.Path,
    record: Mapping[str, Any],
    name: str = RUNS,
    columns: Sequence[str] = COLUMNS,
) -> int:
    """Makes the folder of a table, or takes up one that was interrupted; gives how many
    rows are done."""
    folder.mkdir(parents=True, exist_ok=True)
    path = folder / RECORD_FILE
    if path.exists() or (folder / name).exists():
        changes = changed_in(folder, record)
        if changes:
            suffix = f" and {len(changes) - 1} more" if len(changes) > 1 else ""
            raise TableError(
                f"{folder} has rows that were made otherwise: {changes[0]}{suffix} differ; name another "
                "folder by --out, or remove this one"
            )
    else:
        write_record(folder, record)
    return done_in(folder / name, columns)


def note_read(folder: pathlib.Path, digests: Mapping[str, str]) -> None:
    """Records the files that agents have read, before their row is written. Raises
    TableError if a file has changed since an earlier row."""
    record = record_in(folder)
    known_digests = {
        **{name: digest for name, digest in record.get("files", {}).items()},
        **record.get(READ_KEY, {}),
    }
    for name, digest in digests.items():
        if known_digests.get(name, digest) != digest:
            raise TableError(
                f"{name} has changed while it was played: name another folder by --out, and start again"
            )
    new = {
        name: digest for name, digest in digests.items() if name not in known_digests
    }
    if new:
        write_record(folder, {**record, READ_KEY: {**record.get(READ_KEY, {}), **new}})


def write_record(folder: pathlib.Path, record: Mapping[str, Any]) -> None:
    """Writes how the rows of a folder are made, whole or not at all."""
    text = json.dumps(record, indent=1, sort_keys=True) + "\n"
    path = folder / f".{RECORD_FILE}"
    path.write_text(text, encoding="utf-8")
    path.replace(folder / RECORD_FILE)


@contextlib.contextmanager
def alone_in(folder: pathlib.Path, is_there: bool = False) -> Iterator[None]:
    """Locks a folder against other commands that write to it, and creates it unless
    `is_there`. Raises TableError if it is locked."""
    if not is_there:
        folder.mkdir(parents=True, exist_ok=True)
    lock = os.open(folder, os.O_RDONLY | os.O_DIRECTORY)
    try:
        fcntl.flock(lock, fcntl.LOCK_EX | fcntl.LOCK_NB)
        yield
    except BlockingIOError:
        raise TableError(
            f"another command writes into {folder}: wait until it has ended, or name another folder by "
            "--out"
        ) from None
    finally:
        os.close(lock)
