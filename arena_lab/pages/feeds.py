"""Matches of a contest while it goes on, as the parts and replays of `arena serve` tell
them.

A part, PREFIXM.jsonl.part, grows by whole lines; at the end it becomes the replay,
PREFIXM.jsonl. Only what is new is read, and it is played by the Python model as it
comes. A line that is not whole yet waits.

Turns begin once all agents of a match have entered, or once it has gathered for as long
as the server waits. Of a match with the oblivious schedule the server also says the
turn of each event; of these only turns of enters are looked at while agents are
missing, since all who play see who has entered. The last turn that the server wrote
tells that somebody has done something, so it is for matches that everybody may see.
"""
import contextlib
import json
import os
import pathlib
import time
from typing import Any, Dict, List, Optional

from arena_lab.rules.model import OUTSIDE, Match, begin_match

# bytes of a part that are read at once, so that one match keeps no other waiting
AT_ONCE = 1 << 20
# more bytes than two lines of turns have
LAST_LINES = 64


class MatchFeed:
    """Follows the replay of one match: the events read so far, and the time since which
    turns run. `gather` and `pause` are the options of `serve` in seconds, or None."""

    def __init__(
        self,
        prefix: str,
        number: int,
        gather: Optional[float] = None,
        pause: Optional[float] = None,
    ) -> None:
        self.match: Optional[Match] = None
        self.since: Optional[float] = None
        self._gather = gather
        self._pause = pause
        self._replay = pathlib.Path(f"{prefix}{number}.jsonl")
        self._part = pathlib.Path(f"{prefix}{number}.jsonl.part")
        self._turns = [
            pathlib.Path(f"{prefix}{number}.turns{end}") for end in (".part", "")
        ]
        self._begin()

    def _begin(self) -> None:
        self.match = None
        self.since = None
        self._file = -1
        self._read = 0
        self._rest = b""
        self._opened: Optional[float] = None

    def look(self) -> bool:
        """Reads what is new; answers whether there was anything. A replay has what its
        part had, so reading goes on in it; the part of another contest is read from its
        beginning."""
        path = self._replay if self._replay.exists() else self._part
        try:
            with path.open("rb") as file:
                has_more = self._take(file, path == self._replay)
        except FileNotFoundError:
            return False
        return self._turns_begin() or has_more

    def turn(self) -> Optional[int]:
        """The last turn that the server wrote, if it wrote one."""
        with contextlib.suppress(OSError, ValueError), self._turns_path().open(
            "rb"
        ) as file:
            file.seek(max(0, file.seek(0, os.SEEK_END) - LAST_LINES))
            return next(
                (int(line) for line in reversed(file.read().split(b"\n")[:-1])), None
            )
        return None

    def _turns_path(self) -> pathlib.Path:
        """The file of the turns: their part while they grow."""
        return next((turn for turn in self._turns if turn.exists()), self._turns[0])

    def _turns_begin(self) -> bool:
        """Returns whether turns have started since the last call. If this process was
        started later than the turns, the server's line gives their start."""
        match = self.match
        if match is None or self.since is not None or self._opened is None:
            return False
        now = time.time()
        text = self._said()
        count = sum(agent.standing != OUTSIDE for agent in match.agents)
        late = [
            turn
            for event, turn in zip(match.log, text)
            if event.get("do") == "enter" and turn
        ]
        is_over = self._gather is not None and now >= self._opened + self._gather
        if count == match.setup.agents or late:
            self.since = now - (text or [0])[-1] * (self._pause or 0)
        elif is_over:
            self.since = self._opened + (self._gather or 0)
        return self.since is not None

    def _said(self) -> List[int]:
        """The turns of the events, if the server says them."""
        with contextlib.suppress(OSError, ValueError):
            return [
                int(line) for line in self._turns_path().read_text().split("\n")[:-1]
            ]
        return []

    def _take(self, file: Any, is_replay: bool) -> bool:
        status = pathlib.Path(file.name).stat()
        is_other = (
            not is_replay
            and self._file not in (-1, status.st_ino)
            or status.st_size < self._read
        )
        if is_other:
            self._begin()
        self._file = status.st_ino if not is_replay else self._file
        file.seek(self._read)
        new = file.read(AT_ONCE)
        if new and self._opened is None:
            self._opened = min(time.time(), status.st_mtime)
        self._read += len(new)
        *lines, self._rest = (self._rest + new).split(b"\n")
        for line in lines:
            self._play(json.loads(line))
        return bool(new) or is_other

    def _play(self, line: Dict[str, Any]) -> None:
        """Plays a line: the head, an event, or the end line, which says nothing new."""
        if self.match is None:
            self.match = begin_match(line)
        elif "do" in line:
            self.match.play(line)
