"""Where the programs that a team hands in run."""
import contextlib
import pathlib
import tempfile
from typing import Iterator, Sequence

from arena_lab.play.runners import ProgramRunner, LocalRunner, RefusingRunner
from arena_lab.play.wasm_modules import file_in, is_module
from arena_lab.rules import networks
from arena_lab.rules.model import Setup
from arena_lab.sandbox import calls
from arena_lab.sandbox.sandboxes import ProgramFiles, SandboxOptions, sandboxes_for
from arena_lab.submissions.submission import NETWORK, Submission


@contextlib.contextmanager
def team_runners(
    options: SandboxOptions,
    submission: Submission,
    words: str,
    setup: Setup,
    count: int,
) -> Iterator[Sequence[ProgramRunner]]:
    """Yields the runners of `count` programs of a team: a sandbox each, unless the
    hand-in is refused. The player of a module needs no sandbox."""
    if submission.refusal:
        yield [RefusingRunner(f"the hand-in is refused: {submission.refusal}")] * count
        return
    if is_module(words):
        # it sees nothing but replies, and its memory and steps are bounded
        with tempfile.TemporaryDirectory(prefix="lab-module-") as folder:
            submission.write_file(file_in(words), pathlib.Path(folder))
            yield [LocalRunner(folder)] * count
        return
    with sandboxes_for(options, files_of(submission, words, setup), count) as sandboxes:
        yield sandboxes


def files_of(submission: Submission, words: str, setup: Setup) -> ProgramFiles:
    """Returns the files visible to a program in a match: those of the hand-in, and the
    network file if the words name it."""
    files = (
        {NETWORK: networks.text_of(networks.Network(setup.nodes, setup.links)).encode()}
        if "{network}" in words
        else {}
    )
    return ProgramFiles(
        submission.archive(**files),
        {"network": name for name in files},
        calls.language_of(words, submission.content_of),
    )
