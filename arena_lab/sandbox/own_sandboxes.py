"""A sandbox that is made when its program starts and removed when it ends: for commands
that start programs one by one, such as those that try every schedule."""
import contextlib
import subprocess
from typing import Any, Callable, Mapping, Optional, Sequence

from arena_lab.play.runners import StartedProgram
from arena_lab.rules.fixtures import Fixture
from arena_lab.rules.model import Setup
from arena_lab.sandbox.sandboxes import (
    ProgramFiles,
    Sandbox,
    SandboxOptions,
    sandboxes_for,
)


class OwnSandbox:
    """Runs a single program in a sandbox of its own."""

    def __init__(self, options: SandboxOptions, files: ProgramFiles) -> None:
        self.facts: Mapping[str, str] = files.facts
        self._options = options
        self._kept = files
        self._held = contextlib.ExitStack()
        self._sandbox: Optional[Sandbox] = None
        self._fault = ""

    def start(self, words: Sequence[str], seed: int, errors: Any) -> StartedProgram:
        sandboxes = sandboxes_for(self._options, self._kept, 1)
        self._sandbox = self._held.enter_context(sandboxes)[0]
        return self._sandbox.start(words, seed, errors)

    def kill(self, child: "subprocess.Popen[bytes]") -> None:
        if self._sandbox is not None:
            self._sandbox.kill(child)
            # its control group is gone with it
            self._fault = self._fault or self._sandbox.fault()
        self._held.close()

    def hurry(self, child: "subprocess.Popen[bytes]") -> None:
        if self._sandbox is not None:
            self._sandbox.hurry(child)

    def stable_text(self, text: str) -> str:
        return text if self._sandbox is None else self._sandbox.stable_text(text)

    def hint(self, words: str) -> str:
        return "" if self._sandbox is None else self._sandbox.hint(words)

    def fault(self) -> str:
        return self._fault


class OwnSandboxes:
    """Makes a sandbox for each program that is started, with the files that a match
    gives it. As the `runner_for` of an agent it confines the agent's program in each
    command."""

    def __init__(
        self, options: SandboxOptions, files_in: Callable[[Setup], ProgramFiles]
    ) -> None:
        self._options = options
        self._files_in = files_in

    def __call__(self, fixture: Fixture) -> OwnSandbox:
        return OwnSandbox(self._options, self._files_in(fixture.setup))
