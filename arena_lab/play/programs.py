"""Players that are programs of their own, in any language, as a team would bring them.

The lab starts each program by its command line with host, port and key. The program
connects over loopback and plays as in a contest. It has a port of its own, so the lab
knows whose each connection is. The lab takes a step once each program has sent a line,
waits for its arrival, or has ended, however long that takes, up to a limit. So a seed
gives the same match on every run and every machine, as long as each program is a
function of its replies. A program that breaks the rules ends its own play, and a line
names it.

What a program has sent counts, also if it ends before it is answered, as for `arena
serve`.
"""
import contextlib
import math
import os
import pathlib
import shlex
import socket
import struct
import subprocess
import time
from typing import Callable, Dict, List, Mapping, Optional, Sequence, Sized

from arena_lab.play import wasm_modules
from arena_lab.play.agent_files import AgentError, facts_of
from arena_lab.play.bounds import READ_NOTHING, SENT_NOTHING, TimeBound, Room
from arena_lab.play.runners import HOST, ProgramRunner, LocalRunner, StartError
from arena_lab.play.last_words import asked_behind, error_in, usage_in
from arena_lab.play.mistakes import plain, quote_line
from arena_lab.play.players import DENIALS, DONE, LAST_LINES, TRAVELS, WAITS
from arena_lab.play.line_reader import PIECE, Lines
from arena_lab.rules.draws import seed_of
from arena_lab.rules.fixtures import Fixture
from arena_lab.support.built import without_warning

GONE = '{"ok":"gone"}'
# seconds for a program to exit after the match ends
GRACE = 0.5
# seconds after which the lab looks whether a program that says nothing has ended, or
# has connected twice
SLICE = 0.02
# limit on the quoted characters of a program's last words
WORDS = 200
# what starts files that are no programs themselves, by the ends of their names
INTERPRETERS = {".py": "python3", ".js": "node", ".jar": "java -jar"}
# advice for each denial line of the server
NOT_LET_IN = {
    '{"no":"key"}': "; its key is of no agent here: take the one that it is given in the place of {key}",
    '{"no":"taken"}': "; another program has entered by its key",
}


def start_advice(program: str, fault: OSError) -> str:
    """Says what to change where a program cannot be started."""
    suffix = pathlib.PurePath(program).suffix
    if suffix in INTERPRETERS and "/" not in program:
        return f"{program} is no program: begin with `{INTERPRETERS[suffix]} {program}`"
    if isinstance(fault, FileNotFoundError):
        return f"there is no program {program}: install it, or name another"
    return str(fault.strerror)


class Player:
    """One program, its connection, and what it has sent and was not taken yet."""

    def __init__(
        self, team: "Team", number: int, words: str, runner: ProgramRunner
    ) -> None:
        self.number = number
        self.words = words
        self.state = WAITS
        self.line: Optional[bytes] = None
        self.fault: Optional[str] = None
        self._team = team
        self._has_ended = False
        self._connection: Optional[socket.socket] = None
        self._lines: Optional[Lines] = None
        self._child: Optional["subprocess.Popen[bytes]"] = None
        self._listener_of: Optional[Callable[[], socket.socket]] = None
        self._listener: Optional[socket.socket] = None
        self._runner = runner
        # what the program wrote to standard error, once it has ended
        self.errors = ""
        # in memory: what is free on a disk is seen by all programs
        self._errors = open(os.memfd_create("errors"), "w+b")

    def start(self) -> None:
        """Starts the program in a process group of its own, so that its descendants can
        be killed too."""
        words = command_of(
            self.words, self._team.fixture, self.number, self._runner.facts
        )
        try:
            seed = self._team.seeds[self.number]
            self._child, self._listener_of = self._runner.start(
                words, seed, self._errors
            )
        except StartError as fault:
            self._end(f"cannot be started: {fault}")
        except OSError as fault:
            raise AgentError(f"{self.words}: {start_advice(words[0], fault)}") from None

    def begin(self) -> None:
        """Waits until the program begins."""
        try:
            if self._listener_of is not None:
                self._listener = self._listener_of()
        except StartError as fault:
            self._end(f"cannot be started: {fault}")

    def settle(self) -> None:
        """Waits until the program has sent a line, or its input has ended."""
        if self.state != WAITS or self.line is not None or self._has_ended:
            return
        with self._team.clock as until:
            try:
                self._connect(until)
                while self.line is None and not self._has_ended:
                    self._take(until)
                self._look_for_strangers()
            except TimeoutError:
                self._end(self._hung())
            if self._has_ended and not self.fault:
                self._note_status(until)

    def hear(self, line: str) -> None:
        """Tells the program a line, and waits for its next one if it is due. A program
        that has gone hears nothing, but what it sent before is taken."""
        self.line = None
        self.state = TRAVELS if line == GONE else DONE if line in LAST_LINES else WAITS
        if line in DENIALS:
            self.fault = (
                self.fault or f"was not let in: {line}{NOT_LET_IN.get(line, '')}"
            )
        self._count(line)
        if self._connection is not None and not self._has_ended:
            with self._team.clock as until:
                seconds, part = divmod(max(SLICE, until - time.monotonic()), 1)
                # for sending alone: a timeout of the socket would be one of the thread
                # that reads, too
                self._connection.setsockopt(
                    socket.SOL_SOCKET,
                    socket.SO_SNDTIMEO,
                    struct.pack("ll", int(seconds), int(part * 1_000_000)),
                )
                try:
                    self._connection.sendall(line.encode() + b"\n")
                except BlockingIOError:
                    self._end(self._team.clock.says(READ_NOTHING))
                except OSError:
                    pass
        self.settle()

    def _count(self, line: Sized) -> None:
        """Counts a line, and ends the program's play if there is no room for it."""
        try:
            self._team.room.take(line)
        except ValueError as fault:
            self._end(str(fault))

    def go_on(self) -> None:
        """A program sleeps as it likes, so it is never woken."""

    def read_hashes(self) -> Dict[str, str]:
        """Returns {}: the reads of a program outside of the lab are not recorded."""
        return {}

    def stable_text(self, text: str) -> str:
        """Replaces parts of the program's output that differ in each run."""
        return self._runner.stable_text(text)

    def rest(self) -> bytes:
        """Returns the bytes that the program sent after its last line feed."""
        return b"" if self._lines is None else self._lines.rest.strip()

    def line_count(self) -> int:
        """Returns how many lines have come of the program."""
        return self._lines.count if self._lines else 0

    def stirs(self, before: int) -> Optional[str]:
        """Returns what the program did since it had sent `before` lines: it sent
        another line or ended its output; else None."""
        if self._lines is None:
            return None
        if self._lines.count > before:
            return f"has sent `{quote_line(self._lines.latest())}`"
        if not self._lines.is_over():
            return None
        if self._child is not None:
            with contextlib.suppress(subprocess.TimeoutExpired):
                self._child.wait(GRACE)
        words = self._last_words().removeprefix(": ")
        return f"has ended ({words})" if words else "has ended"

    def stop(self, fault: Optional[str] = None) -> None:
        """Ends the program and all that it started."""
        self.fault = self.fault or fault
        self.state = DONE
        self._look_for_strangers()
        if self._child is not None:
            self._runner.kill(self._child)
        self.fault = self._runner.fault() or self.fault
        self.errors = self._errors_of()
        if self._lines is not None:
            self._lines.close()
        for stream in (self._connection, self._listener, self._errors):
            if stream is not None:
                stream.close()

    def hurry(self) -> None:
        """Tells the program to end, without waiting until it has."""
        if self._child is not None:
            self._runner.hurry(self._child)

    def is_alive(self) -> bool:
        return self._child is not None and self._child.poll() is None

    def _look_for_strangers(self) -> None:
        """A second connection ends the program's play."""
        second_connection = self._accepted(0) if self._connection is not None else None
        if second_connection is not None:
            second_connection.close()
            self._end("has connected twice")

    def _accepted(self, seconds: float) -> Optional[socket.socket]:
        """Accepts a connection of the program; returns None after `seconds` without
        one."""
        if self._listener is None or self._listener.fileno() < 0:
            return None
        self._listener.settimeout(seconds)
        try:
            return self._listener.accept()[0]
        except OSError:
            return None

    def _connect(self, until: float) -> None:
        """Waits for the program's connection; a program that ends before has none."""
        while self._connection is None:
            was_alive = self.is_alive()
            self._connection = self._accepted(SLICE if was_alive else 0)
            if self._connection is not None:
                self._connection.settimeout(None)
                self._connection.setsockopt(socket.IPPROTO_TCP, socket.TCP_NODELAY, 1)
                self._lines = Lines(self._connection)
            elif not was_alive:
                status = self._child.returncode if self._child else None
                self._end(
                    f"has ended with status {as_in_a_shell(status)} before it connected{self._last_words()}"
                )
                return
            elif time.monotonic() > until:
                raise TimeoutError

    def _take(self, until: float) -> None:
        """Takes a line or the end, or waits on."""
        try:
            if self._lines is None:
                raise TimeoutError
            self.line = self._lines.next(SLICE)
            self._has_ended = self.line is None
            self._count(self.line or b"")
        except TimeoutError:
            if time.monotonic() > until:
                raise
            self._look_for_strangers()

    def _note_status(self, until: float) -> None:
        """Says how the program ended, if that is a failure."""
        if self._child is None:
            return
        try:
            status = self._child.wait(max(GRACE, until - time.monotonic()))
        except subprocess.TimeoutExpired:
            return
        if status != 0:
            self.fault = f"has ended with status {as_in_a_shell(status)} in the middle of its match{self._last_words()}"

    def _errors_of(self) -> str:
        """The end of what the program wrote to standard error, without what is another
        on each run."""
        if self._errors.closed:
            return self.errors
        return "\n".join(
            plain(self._runner.stable_text(line))
            for line in self._end_of_errors().split("\n")
        )

    def _end_of_errors(self) -> str:
        """Returns the end of the program's standard error, without the module player's
        warning that it has no proof."""
        size = self._errors.seek(0, os.SEEK_END)
        self._errors.seek(max(0, size - PIECE))
        return without_warning(self._errors.read().decode(errors="replace"))

    def _last_words(self) -> str:
        """The line that names the error in what the program wrote to standard error, as
        one that changes nothing where it is shown."""
        text = self._end_of_errors()
        words = self._runner.stable_text(error_in(text))
        usage = self._runner.stable_text(usage_in(text))
        if usage:
            return f": an argument is missing, or there is one too many: it is called as `{plain(usage)[:WORDS]}`"
        if not words:
            return ""
        hint = (
            self._runner.hint(words)
            or self._runner.hint(text.strip()[-PIECE // 64 :])
            or asked_behind(words)
        )
        return f": {plain(words)[:WORDS]}{hint}"

    def _hung(self) -> str:
        """Returns the fault of a program that exceeded its time limit, with the
        likeliest omission."""
        text = self._team.clock.says(SENT_NOTHING)
        words = self._last_words()
        if words or not text.startswith(SENT_NOTHING):
            return f"{text}{words}"
        asks = (
            "does it end each line with a line feed, and flush?"
            if self.rest()
            else "does it flush after each line?"
        )
        return f"{text}; {asks}"

    def _end(self, fault: str) -> None:
        """Ends the program's play; its agent leaves the match if it is in it."""
        self.fault = self.fault or fault
        self._has_ended = True
        self.line = None
        if self._child is not None:
            self._runner.kill(self._child)


def as_in_a_shell(status: Optional[int]) -> Optional[int]:
    """Converts a status of subprocess to that of a shell: 128 plus the number of the
    signal."""
    return 128 - status if status is not None and status < 0 else status


def seeds_of(fixture: Fixture) -> List[int]:
    """The numbers of a match's agents."""
    return list(map(seed_of, fixture.keys))


def command_of(
    words: str, fixture: Fixture, number: int, other_words: Mapping[str, str]
) -> List[str]:
    """The words of a command that starts an agent's program, or the player of a module,
    but for the port, which is not known yet."""
    facts: Dict[str, object] = {
        "host": HOST,
        "port": "{port}",
        "key": fixture.keys[number],
        **facts_of(fixture.setup),
        **other_words,
    }
    try:
        command = [
            word.format(**facts) for word in shlex.split(wasm_modules.command_of(words))
        ]
    except (KeyError, IndexError, ValueError):
        command = []
    if not command:
        names = [f"{{{name}}}" for name in facts]
        raise AgentError(
            f"{words}: in a command stand {', '.join(names[:-1])} and {names[-1]}"
        )
    return command


class Team:
    """The programs of a match, with a limit of seconds for each line and one for the
    whole match."""

    def __init__(
        self,
        fixture: Fixture,
        commands: Mapping[int, str],
        seconds: float,
        runners: Optional[Mapping[int, ProgramRunner]] = None,
        in_all: float = math.inf,
        seeds: Optional[Sequence[int]] = None,
        room: float = math.inf,
    ) -> None:
        """Commands and runners are by agent number; seeds default to those of the
        keys."""
        self.fixture = fixture
        self.room = Room(room)
        self.seeds = seeds_of(fixture) if seeds is None else seeds
        self.clock = TimeBound(seconds, in_all)
        self.players: List[Player] = [
            Player(self, number, words, runners[number] if runners else LocalRunner())
            for number, words in commands.items()
        ]

    def start(self) -> None:
        """Starts all programs, and waits for their first lines, for all of them
        together."""
        for step in (Player.start, Player.begin):
            for player in self.players:
                step(player)
        self.clock.begin()
        for player in self.players:
            player.settle()
        self.clock.begin(False)

    def stop(self) -> None:
        """Ends all programs; those that have received the end of the match get time to
        exit by themselves."""
        until = time.monotonic() + GRACE
        while (
            any(player.is_alive() for player in self.players)
            and time.monotonic() < until
        ):
            time.sleep(0.005)
        for player in self.players:
            player.hurry()
        for player in self.players:
            player.stop()
