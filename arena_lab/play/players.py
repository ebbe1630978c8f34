"""Players inside the lab: agents in Python. Each is a greenlet, and one runs at a time.

A player runs until it waits for the answer to its line, for its arrival, or to be
woken. `state` says which, and `line` is the line that it sent, or None if its input has
ended.
"""
import operator
import pathlib
import signal
import threading
import traceback
from collections import deque
from types import TracebackType
from typing import Any, Callable, Deque, Dict, List, Mapping, Optional, Sequence

from arena_lab.play.agent_files import Script
from arena_lab.play.bounds import LIMIT
from arena_lab.play.foreign_files import notes_of, read_by
from arena_lab.play.own_modules import OwnModules
from arena_lab.rules.draws import seed_of
from arena_lab.rules.model import GONE, LAST, spell
from arena_lab.support.missing import require

# an answer is due; an arrival is due; it sleeps; nothing more comes
WAITS = "waits"
TRAVELS = "travels"
SLEEPS = "sleeps"
DONE = "done"
# denials, and replies after which the connection ends
DENIALS = {spell({"no": why}) for why in ("enter", "key", "taken")}
LAST_LINES = DENIALS | {spell(reply) for reply in LAST}
# reply to a departure, after which the arrival follows; and the pseudo-line for an
# agent that wakes
DEPARTED = spell(GONE)
WAKES = "wakes"
# what is never taken from lines ahead
NEVER_AHEAD = LAST_LINES | {WAKES}
# the parts of a player by which the lab plays its program: the program may not set them
STAYS = ("number", "modules", "_team", "_heard", "_thread")
CHANGED = "has changed {} of its lines, by which the lab plays it"

# the folders of the lab's own lines and of Python's modules
NOT_OWN = (pathlib.Path(__file__).parent, pathlib.Path(operator.__file__).parent)

# how many times longer an agent may sleep than compute: a machine with other work lets
# it wait too
LONGER = 20


class TooSlowError(Exception):
    """An agent's program computes or sleeps, and neither sends nor waits."""


class Player:
    """One agent's program. It has `send` and `receive`, by which the client asks, and
    `sleep`."""

    # the lab finds these values if a program deletes such a part
    state = WAITS
    errors = ""
    latest = ""
    line: Optional[bytes] = None
    fault: Optional[str] = None
    ahead: Optional[Deque[str]] = None
    _is_over = _is_closed = False

    def __init__(self, team: "Team", number: int, key: str, script: Script) -> None:
        self.number = number
        self.state = WAITS
        self.line = self.fault = None
        self.errors = ""
        # the last line received, and the lines ahead while a history is replayed
        self.latest = ""
        self.ahead = None
        # those that the script loads for this agent alone
        self.modules = OwnModules(team.seeds[number])
        self._team = team
        self._heard: Deque[str] = deque()
        self._is_over = False
        self._is_closed = False
        self._thread = require("greenlet").greenlet(lambda: self._run(script, key))

    def read_hashes(self) -> Dict[str, str]:
        """The SHA-256 of each file that the program has read, by their names, if that
        is noted."""
        return read_by(notes_of(self._thread))

    def stable_text(self, text: str) -> str:
        """Returns the text unchanged: agents inside the lab print the same on each
        run."""
        return text

    def rest(self) -> bytes:
        """An agent inside sends whole lines."""
        return b""

    def hear(self, line: str) -> None:
        """Tells the agent a line, and lets it go on."""
        self.line = None
        self.latest = line
        self._heard.append(line)
        self._is_over = self._is_over or line in LAST_LINES
        self.go_on()

    def go_on(self) -> None:
        """Lets the program begin, wake, or read what it heard."""
        self._team.turns += 1
        changes = self._turn(self._thread.switch)
        if changes is not None:
            self.stop()
            # this fault takes the place of any other
            self.fault = CHANGED.format(changes)

    def stop(self, fault: Optional[str] = None) -> None:
        """Ends the program."""
        self.fault = self.fault or fault
        self.state = DONE
        self._turn(self._thread.throw)

    def _turn(self, begins: Callable[[], Any]) -> Optional[str]:
        """Lets the program run until it waits or ends. If it has set a part that it may
        not set, puts the part back and answers which."""
        parts = vars(self)
        kind = type(self)
        before = [*map(parts.get, STAYS)]
        with self.modules:
            begins()
        if (
            type(self) is kind
            and vars(self) is parts
            and all(map(operator.is_, before, map(parts.get, STAYS)))
        ):
            return None
        attributes = [
            attribute
            for attribute, part in zip(STAYS, before)
            if parts.get(attribute) is not part
        ]
        object.__setattr__(self, "__class__", kind)
        self.__dict__ = parts
        parts.update(zip(STAYS, before))
        return attributes[0] if attributes else "the class or the dict"

    def send(self, line: str) -> None:
        if self._is_closed:
            raise ConnectionError("the agent has closed its connection")
        self.line = line.encode(errors="replace")

    def close(self) -> None:
        """Closes the agent's connection, as a program outside may."""
        self._is_closed = True

    def receive(self) -> str:
        if not self._heard:
            ahead = self.ahead
            state = WAITS if self.line is not None else TRAVELS
            if (
                ahead
                and ahead[0] not in NEVER_AHEAD
                and (self.latest == DEPARTED) == (state == TRAVELS)
            ):
                # a line of a replayed history is delivered in the same turn; for the
                # program this does not differ from having waited for it
                self._team.turns += 1
                self.state = state
                self.line = None
                self.latest = ahead.popleft()
                return self.latest
            self._wait(state)
        return self._heard.popleft()

    def sleep(self, _seconds: float) -> None:
        self._wait(SLEEPS)

    def _wait(self, state: str) -> None:
        self.state = state
        self._thread.parent.switch()

    def _run(self, script: Script, key: str) -> None:
        try:
            script(self, key, self.sleep)
        except TooSlowError as fault:
            self.fault = str(fault)
        except (Exception, SystemExit) as fault:
            self.fault = (
                f"raises {type(fault).__name__}: {fault}{place_in(fault.__traceback__)}"
            )
        # its connection is closed, as that of a program that ends
        self.line = None
        self.state = DONE if self._is_over else WAITS


def place_in(trace: Optional[TracebackType]) -> str:
    """The last line of the agent's own file through which an exception came, in
    parentheses: not one of the lab, of the client, or of Python."""
    location = ""
    for frame, line in traceback.walk_tb(trace):
        path = pathlib.PurePath(frame.f_code.co_filename)
        if (
            path.name != "client.py"
            and path.suffix == ".py"
            and not any(folder in path.parents for folder in NOT_OWN)
        ):
            location = f" ({path.name}, line {line})"
    return location


class Clock:
    """Ends a program that is still in the same turn when the clock has rung twice."""

    def __init__(
        self, team: "Team", signals: int, timer: int, seconds: float, does: str
    ) -> None:
        self._team = team
        self._signal = signals
        self._timer = timer
        self._seconds = seconds
        self._fault = f"has {does} for {seconds:g} s, and neither sends nor waits"
        self._seen = 0
        self._before: Any = None

    def start(self) -> None:
        # signals reach the main thread alone: in another one nobody ends a program that
        # computes without end
        if threading.current_thread() is threading.main_thread():
            self._before = signal.signal(self._signal, self._look)
            signal.setitimer(self._timer, self._seconds, self._seconds)

    def stop(self) -> None:
        if self._before is not None:
            signal.setitimer(self._timer, 0)
            signal.signal(self._signal, self._before)
            self._before = None

    def _look(self, *_: Any) -> None:
        """Ends a program that has been running since the last look."""
        if (
            self._team.turns == self._seen
            and require("greenlet").getcurrent().parent is not None
        ):
            raise TooSlowError(self._fault)
        self._seen = self._team.turns


class Team:
    """The players of a match. A player that computes longer than its limit is ended.
    That is time of the processor, as one that is busy with other work must not end an
    agent; an agent that sleeps has a longer limit."""

    def __init__(
        self,
        keys: Sequence[str],
        scripts: Mapping[int, Script],
        seconds: float = LIMIT,
        seeds: Optional[Sequence[int]] = None,
    ) -> None:
        """Scripts are by agent number; seeds default to those of the keys."""
        self.turns = 0
        self.seeds = [seed_of(key) for key in keys] if seeds is None else seeds
        self.players = [
            Player(self, number, keys[number], script)
            for number, script in scripts.items()
        ]
        self._clocks = [
            Clock(self, signal.SIGPROF, signal.ITIMER_PROF, seconds, "computed"),
            Clock(
                self,
                signal.SIGALRM,
                signal.ITIMER_REAL,
                seconds * LONGER,
                "slept or computed",
            ),
        ]

    def start(self) -> None:
        """Begins all programs, in order."""
        for clock in self._clocks:
            clock.start()
        for player in self.players:
            player.go_on()

    def stop(self) -> None:
        """Ends all programs."""
        for clock in self._clocks:
            clock.stop()
        for player in self.players:
            player.stop()


def faults_of(players: Sequence[Any]) -> List[str]:
    """A line for each player that has a fault, which names its agent."""
    return [
        f"agent {player.number}: {player.fault}" for player in players if player.fault
    ]
