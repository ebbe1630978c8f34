"""Engines: what plays a match, line by line. The proved program is one, the Python
model (arena_lab/rules/rehearsal.py) another."""
import os
import pathlib
import subprocess
import tempfile
from typing import IO, Iterable, List, Optional, Protocol, cast

from arena_lab.rules.fixtures import Fixture, write_tournament
from arena_lab.rules.model import Match, Verdict
from arena_lab.rules.printed import verdict_in
from arena_lab.rules.rehearsal import Rehearsal, SentLine
from arena_lab.support import built
from arena_lab.support.built import ProgramError
from arena_lab.support.faults import ArenaError

TOP = built.TOP
HOW_TO_BUILD = (
    "name another by --program; by default the lab takes the one that `./arena` runs"
)
PROGRAM = "program"
MODEL = "model"


class Engine(Protocol):
    """Plays one match. Lines are fed to connections, deliveries are drawn by a word,
    and the match is closed; each call gives what came out, by connection. `match` is
    how the match stands by the Python model, `script` has the lines of the script that
    was played."""

    match: Match
    script: List[bytes]

    def feed(self, number: int, line: bytes) -> List[SentLine]:
        ...

    def end(self, number: int) -> List[SentLine]:
        ...

    def draw(self, word: int) -> List[SentLine]:
        ...

    def close(self) -> List[SentLine]:
        ...

    def replay(self) -> bytes:
        ...

    def stop(self) -> None:
        ...


def text_of_fault(errors: bytes) -> str:
    """Returns the program's error text, without the warning of an unproved build."""
    return built.without_warning(errors.decode(errors="replace")).strip()


class EnginesDifferError(ArenaError):
    """The program and the Python model do not agree."""

    status = 1


class EngineRefusedError(ArenaError):
    """The program refused; its line and its status."""

    def __init__(self, line: str, status: int) -> None:
        super().__init__(line or f"the program ended with status {status}")
        self.status = status


def program_at(path: Optional[str], modules: Iterable[str] = ()) -> str:
    """Returns the named program, else the proved one if it is built, else the unproved
    one, which is compiled first. Raises MissingPackageError before a compilation if
    `modules` are missing. Prints a warning if the program is unproved."""
    program_path = pathlib.Path(path or built.any_program(modules))
    if not program_path.is_file() or not os.access(program_path, os.X_OK):
        raise ProgramError(f"{program_path}: there is no such program: {HOW_TO_BUILD}")
    built.warn_of(program_path.resolve())
    return str(program_path.resolve())


BY_MODEL = "the Python model, of which nothing is proved"
# all names of what plays
NAMES = (
    BY_MODEL,
    built.PROGRAM,
    built.UNPROVED_NAME,
    built.PORT_NAME,
    built.UNKNOWN,
)


def name_of(program: Optional[str]) -> str:
    """Returns the name of the engine for reports and records."""
    return BY_MODEL if program is None else built.name_of(pathlib.Path(program))


def program_output(program: str, *words: str) -> str:
    """Runs the program with these arguments and returns its output."""
    result = subprocess.run(
        [program, *words], stdin=subprocess.DEVNULL, capture_output=True
    )
    if result.returncode != 0:
        raise EngineRefusedError(text_of_fault(result.stderr), result.returncode)
    return result.stdout.decode()


def program_verdict(program: str, replay: pathlib.Path) -> Verdict:
    """The program's verdict on a replay, which it prints as `guess 1 moves 0 lost
    0`."""
    return verdict_in(program_output(program, "judge", str(replay)))


class Program:
    """The proved program as an engine: `arena rehearse --interactive` at the other end
    of two pipes.

    The Python model plays the same beside it and says how the match stands; what comes
    out of both is compared, line by line, and so are their replays.
    """

    def __init__(self, fixture: Fixture, program: str) -> None:
        self._beside = Rehearsal(fixture)
        self.match = self._beside.match
        self.script = self._beside.script
        self._folder = tempfile.TemporaryDirectory(prefix="lab-")
        self._left = b""
        folder = pathlib.Path(self._folder.name)
        write_tournament(fixture, folder)
        words = [
            program,
            "rehearse",
            "tournament.toml",
            "--interactive",
            "--replay",
            "match",
        ]
        self._child = subprocess.Popen(
            words,
            cwd=folder,
            stdin=subprocess.PIPE,
            stdout=subprocess.PIPE,
            stderr=subprocess.PIPE,
            start_new_session=True,
        )

    def feed(self, number: int, line: bytes) -> List[SentLine]:
        return self._play(self._beside.feed(number, line))

    def end(self, number: int) -> List[SentLine]:
        return self._play(self._beside.end(number))

    def draw(self, word: int) -> List[SentLine]:
        return self._play(self._beside.draw(word))

    def close(self) -> List[SentLine]:
        return self._play(self._beside.close())

    def replay(self) -> bytes:
        """The replay that the program writes, which ends the rehearsal."""
        _, errors = self._child.communicate()
        if self._child.returncode != 0:
            raise EngineRefusedError(text_of_fault(errors), self._child.returncode)
        data = (pathlib.Path(self._folder.name) / "match0.jsonl").read_bytes()
        if data != self._beside.replay():
            raise EnginesDifferError(
                "the program and the Python model write other replays"
            )
        return data

    def stop(self) -> None:
        """Ends the program, and drops its files."""
        if self._child.poll() is None:
            self._child.kill()
        self._child.communicate()
        self._folder.cleanup()

    def _play(self, expected_lines: List[SentLine]) -> List[SentLine]:
        """Gives the last line of the script to the program, whose answer is to be what
        the model's is."""
        line = self.script[-1]
        answer = self._answer(line)
        expected_output = "".join(
            f"{number} {text}\n" for number, text in expected_lines
        ).encode()
        if answer != expected_output:
            raise EnginesDifferError(
                f"line {len(self.script)} of the script, {line!r}: the program says {answer!r}, the Python "
                f"model {expected_output!r}"
            )
        return expected_lines

    def _answer(self, line: bytes) -> bytes:
        """Sends a line to the program and returns its output up to the next empty
        line."""
        answer = self._left
        child_input = cast(IO[bytes], self._child.stdin)
        child_output = cast(IO[bytes], self._child.stdout)
        try:
            child_input.write(line + b"\n")
            child_input.flush()
            while not (answer.startswith(b"\n") or b"\n\n" in answer):
                piece = os.read(child_output.fileno(), 65_536)
                if not piece:
                    raise BrokenPipeError
                answer += piece
        except BrokenPipeError:
            _, errors = self._child.communicate()
            raise EngineRefusedError(
                text_of_fault(errors), self._child.returncode
            ) from None
        answer, _, self._left = (b"\n" + answer).partition(b"\n\n")
        return answer[1:] + (b"\n" if answer else b"")
