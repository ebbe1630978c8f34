"""What a graded course keeps beside its results, so that a hand-in is read once and its
agents can be repeated later, also on another machine:

    course.toml         the course's file
    hand-ins/TEAM.tar   what a team has handed in
    hand-ins/TEAM.json  its digest and those of its program's files, or why it is refused
"""
import functools
import json
import pathlib
import subprocess
import sys
from typing import Dict, List, NamedTuple

from arena_lab.submissions.reader import CANNOT, SECONDS
from arena_lab.submissions.submission import Submission, read_archive
from arena_lab.support.built import TOP
from arena_lab.sweep.tables import TableError

COURSE = "course.toml"
HAND_INS = "hand-ins"
# in the record of what rows depend on: the name of a team's hand-in
TEAM = "team "
# reads a hand-in, in a process of its own
READ_PROGRAM = f"import sys; sys.path.insert(0, {str(TOP)!r}); from arena_lab.submissions import reader; reader.main()"


class SubmissionRecord(NamedTuple):
    """A stored hand-in: digest, reason for a refusal, and SHA-256 of each program
    file."""

    digest: str
    refusal: str
    files: Dict[str, str]


def store_submission(
    out: pathlib.Path,
    team: str,
    paths: List[pathlib.Path],
    folder: pathlib.Path,
    words: str,
) -> SubmissionRecord:
    """Reads what a team hands in, whose program is started by these words, and keeps
    it. A process of its own reads it, within bounds of memory and time, so whatever is
    in it stops nothing else."""
    archive, record_path = places(out, team)
    archive.parent.mkdir(parents=True, exist_ok=True)
    message = json.dumps([str(archive), str(folder), words, *map(str, paths)])
    try:
        result = subprocess.run(
            [sys.executable, "-c", READ_PROGRAM],
            input=message,
            capture_output=True,
            text=True,
            timeout=SECONDS,
        )
        record = SubmissionRecord(*json.loads(result.stdout))
    except (subprocess.TimeoutExpired, TypeError, ValueError):
        archive.write_bytes(Submission({}).archive())
        record = SubmissionRecord(Submission({}, CANNOT).digest(), CANNOT, {})
    record_path.write_text(
        json.dumps(record._asdict(), indent=1) + "\n", encoding="utf-8"
    )
    return record


def places(out: pathlib.Path, team: str) -> List[pathlib.Path]:
    """Returns the paths of a stored hand-in: its archive and its record."""
    return [out / HAND_INS / f"{team}{suffix}" for suffix in (".tar", ".json")]


def is_kept(out: pathlib.Path, team: str) -> bool:
    return all(path.is_file() for path in places(out, team))


def record_of(out: pathlib.Path, team: str) -> SubmissionRecord:
    """Reads the record of a stored hand-in."""
    path = places(out, team)[1]
    try:
        values = json.loads(path.read_text(encoding="utf-8"))
        return SubmissionRecord(values["digest"], values["refusal"], values["files"])
    except (KeyError, TypeError, ValueError):
        raise TableError(
            f"{path}: it is not as it was written: name another folder"
        ) from None


def stored_submission(out: pathlib.Path, team: str) -> Submission:
    """Reads a stored hand-in. Raises TableError if its archive does not match the
    recorded digest."""
    record = record_of(out, team)
    return read_verified(str(places(out, team)[0]), record.digest, record.refusal)


@functools.lru_cache(maxsize=4)
def read_verified(archive: str, digest: str, refusal: str) -> Submission:
    """Unpacks an archive, and raises TableError if its digest is not the one given."""
    submission = read_archive(pathlib.Path(archive).read_bytes(), refusal)
    if submission.digest() != digest:
        raise TableError(
            f"{archive}: it is not what the team has handed in, as its digest is another: name another "
            "folder by --out, and start again"
        )
    return submission
