"""Reads what a team hands in, in a process of its own that has bounds of memory and
time: whatever is in it stops nothing else.

Standard input has the archive to write, the course's folder, the words that start the
team's program, and the files, as a list in JSON. Standard output gets the digest, why
the hand-in is refused, and the digests of its program's files.
"""
import json
import pathlib
import resource
import sys

from arena_lab.submissions.submission import Submission, read_paths

# bytes of memory and seconds that it may take
MEMORY = 1 << 30
SECONDS = 60
CANNOT = f"it cannot be read within {SECONDS} s and {MEMORY >> 30} GB of memory"


def main() -> None:
    for kind, limit in (
        (resource.RLIMIT_AS, MEMORY),
        (resource.RLIMIT_CPU, SECONDS),
        (resource.RLIMIT_CORE, 0),
    ):
        resource.setrlimit(kind, (limit, limit))
    archive_path, folder, words, *paths = json.load(sys.stdin)
    archive = pathlib.Path(archive_path)
    submission = read_paths(list(map(pathlib.Path, paths)), pathlib.Path(folder))
    try:
        files = submission.digests(words)
        archive.write_bytes(submission.archive())
    except (OSError, MemoryError, RecursionError, ValueError) as fault:
        submission = Submission({}, f"its files cannot be read: {type(fault).__name__}")
        files = {}
        archive.write_bytes(submission.archive())
    print(json.dumps([submission.digest(), submission.refusal, files]))
