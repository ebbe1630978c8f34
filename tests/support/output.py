"""What is printed while something is called, and folders for tests."""
import contextlib
import io
import pathlib
import tempfile
import unittest
from typing import Any, Callable, NamedTuple


class CallResult(NamedTuple):
    """What a call gave, mostly the exit status of a command, and what it printed and
    told."""

    status: Any
    output: str
    errors: str


def run_call(call: Callable[..., Any], *args: Any, **extra: Any) -> CallResult:
    """Calls a function and captures its output; the status of SystemExit counts as the
    result."""
    with contextlib.redirect_stdout(
        io.StringIO()
    ) as stream, contextlib.redirect_stderr(io.StringIO()) as errors:
        try:
            status = call(*args, **extra)
        except SystemExit as error:
            status = error.code
    return CallResult(status, stream.getvalue(), errors.getvalue())


def write(path: pathlib.Path, text: str, mode: int = 0o644) -> pathlib.Path:
    """Writes a file with its parent folders, and sets its mode."""
    path.parent.mkdir(parents=True, exist_ok=True)
    path.write_text(text)
    path.chmod(mode)
    return path


class InTemporary(unittest.TestCase):
    """A test case with a temporary folder per test."""

    def setUp(self) -> None:
        self.folder = pathlib.Path(self.enterContext(tempfile.TemporaryDirectory()))
