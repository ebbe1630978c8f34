"""Where a team's program runs: as the user who starts the lab, or nowhere. Sandboxes
(arena_lab/sandbox) are runners too."""
import os
import signal
import socket
import subprocess
from typing import Any, Callable, Dict, Mapping, Optional, Protocol, Sequence, Tuple

from arena_lab.rules.fixtures import Fixture

HOST = "127.0.0.1"


class StartError(Exception):
    """A program cannot be started, and its team is to blame; says why."""


# a started program, and a function that waits for its start and returns the listener
# that it is to connect to
StartedProgram = Tuple["subprocess.Popen[bytes]", Callable[[], socket.socket]]


class ProgramRunner(Protocol):
    """The place where a program runs. `facts` are its values for the words of a
    command, by name."""

    @property
    def facts(self) -> Mapping[str, str]:
        ...

    def start(self, words: Sequence[str], seed: int, errors: Any) -> StartedProgram:
        """Starts a program, which finds the seed in ARENA_SEED. The port of its
        listener stands for `{port}`."""

    def kill(self, child: "subprocess.Popen[bytes]") -> None:
        """Kills a program and all its descendants."""

    def hurry(self, child: "subprocess.Popen[bytes]") -> None:
        """Tells a program to end that is going to be ended, so that those of a match
        end at the same time."""

    def stable_text(self, text: str) -> str:
        """Replaces parts of a program's output that differ in each run, such as
        temporary paths."""

    def hint(self, words: str) -> str:
        """Returns advice suggested by a program's last words."""

    def fault(self) -> str:
        """Returns why the runner has ended the program, or ""."""


class LocalRunner:
    """A program runs as the user who starts the lab, in the same folder or in one that
    is named."""

    facts: Mapping[str, str] = {}

    def __init__(self, folder: Optional[str] = None) -> None:
        self._folder = folder

    def start(self, words: Sequence[str], seed: int, errors: Any) -> StartedProgram:
        listener = socket.create_server((HOST, 0))
        command = [
            word.replace("{port}", str(listener.getsockname()[1])) for word in words
        ]
        try:
            return (
                subprocess.Popen(
                    command,
                    stdin=subprocess.DEVNULL,
                    stdout=subprocess.DEVNULL,
                    stderr=errors,
                    cwd=self._folder,
                    env={**os.environ, **seeds(seed)},
                    start_new_session=True,
                ),
                lambda: listener,
            )
        except OSError:
            listener.close()
            raise

    def kill(self, child: "subprocess.Popen[bytes]") -> None:
        self.hurry(child)
        child.wait()

    def hurry(self, child: "subprocess.Popen[bytes]") -> None:
        try:
            os.killpg(child.pid, signal.SIGKILL)
        except ProcessLookupError:
            pass

    def stable_text(self, text: str) -> str:
        return text

    def hint(self, words: str) -> str:
        return ""

    def fault(self) -> str:
        return ""


def local_runner(_: Fixture) -> ProgramRunner:
    """Returns the default runner of an agent's program."""
    return LocalRunner()


class RefusingRunner(LocalRunner):
    """No program can run; says why."""

    def __init__(self, why: str) -> None:
        super().__init__()
        self._why = why

    def start(self, words: Sequence[str], seed: int, errors: Any) -> StartedProgram:
        raise StartError(self._why)


def seeds(seed: int) -> Dict[str, str]:
    """The variables that tell a program its seed. With them Python goes through sets of
    texts in the same order on each run."""
    return {"ARENA_SEED": str(seed), "PYTHONHASHSEED": str(seed)}
