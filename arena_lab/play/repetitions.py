"""Repeats an agent of a match alone, to see whether the same answers get the same
commands.

An agent's past decides what it says, if its program uses its answers and the number in
ARENA_SEED, and nothing else. This is tested for the match at hand. The program is
started anew, with a key that nobody has used before; no other agent of its match runs,
and each answer is sent at once. So what another agent signals past the whiteboards only
while it runs is not there to be heard. What it has left in the kernel may be. No pauses
are made either, as a program that listens for pauses would hear them as signals. If all
agents of a match repeat, then each of them said what it says when it hears no such
signals.

The past is taken from the replay alone. It has no lines that changed nothing and were
not heard (entering twice, and commands beyond the quota): these are answered as the
rules say. It does not say either how often an agent inside the lab has slept, so one
that is repeated wakes until it says something.
"""
import json
import secrets
from typing import List, NamedTuple, Optional, Sequence

from arena_lab.play import mistakes, programs
from arena_lab.play.matches import MAX_REFUSED, PlayedMatch, Player, Team
from arena_lab.play.players import SLEEPS, WAITS
from arena_lab.play.teams import AgentWords, alone
from arena_lab.rules.fixtures import Fixture
from arena_lab.rules.model import (
    GONE,
    OVER,
    Object,
    command_of,
    objects_of,
    spell,
    text_of,
)

SAYS_OTHERWISE = "says something else when it is told the same again"
ENTER: Object = {"do": "enter"}
LEAVE: Object = {"do": "leave"}
# what does not count towards the quota
FREE = ("enter", "leave")
RULE = (
    "a program may use what it is told and the number in ARENA_SEED, and nothing else, so neither its key nor a "
    "clock"
)


class PastCommand(NamedTuple):
    """A command of an agent, and the lines that it received next, in order."""

    command: Object
    lines: List[Object]


class Otherwise(NamedTuple):
    """The first command (numbered from 1) that differs when the agent is repeated with
    the same replies. A fault of the program may be the reason."""

    agent: int
    number: int
    in_match: Object
    alone: Object
    fault: str

    def __str__(self) -> str:
        fault = f" (the program {self.fault})" if self.fault else ""
        return (
            f"agent {self.agent}: {SAYS_OTHERWISE}, at command {self.number}: in the match "
            f"`{in_words(self.in_match)}`, alone `{in_words(self.alone)}`{fault}; {RULE}"
        )


def in_words(command: Object) -> str:
    """Formats a command for readers, such as `depart port 1`; long ones are
    truncated."""
    words = [
        f"{name} {json.dumps(value, ensure_ascii=False)}"
        for name, value in command.items()
        if name not in ("do", "key")
    ]
    return mistakes.plain(" ".join([str(command["do"]), *words]))[: programs.WORDS]


def past_of(replay: str, agent: int) -> List[PastCommand]:
    """Returns an agent's commands in a match with the lines that it received."""
    commands: List[PastCommand] = []
    for event in objects_of(replay)[1:]:
        if event.get("agent") != agent:
            continue
        if event["do"] == "deliver":
            # a destroyed agent receives nothing before the close
            commands[-1].lines.append(event["reply"] or OVER)
        else:
            command = {
                name: value
                for name, value in event.items()
                if name not in ("agent", "reply")
            }
            commands.append(PastCommand(command, [event["reply"]]))
    if commands and commands[-1].lines == [GONE]:
        # nobody delivered it: its link is held
        commands[-1].lines.append(OVER)
    return commands


class Alone:
    """Repeats an agent: it receives the lines of its past again."""

    def __init__(self, player: Player, key: str, quota: int) -> None:
        self._player = player
        self._key = key
        self._quota = quota
        self._used = 0
        self._has_entered = False

    def otherwise(self, past: Sequence[PastCommand]) -> Optional[Otherwise]:
        """Returns the first difference between the repetition and the match, or
        None."""
        for number, command in enumerate(past, 1):
            alone = self._said()
            if alone != command.command:
                return self._differs(number, command.command, alone)
            self._has_entered = True
            self._used += alone["do"] not in FREE
            if not self._hears(command.lines):
                return None
        if not past and self._said() == ENTER:
            return self._differs(1, LEAVE, ENTER)
        return None

    def _differs(self, number: int, in_match: Object, alone: Object) -> Otherwise:
        return Otherwise(
            self._player.number, number, in_match, alone, self._player.fault or ""
        )

    def _hears(self, answers: Sequence[Object]) -> bool:
        """Sends the agent these answers of the match; gives whether its input goes on."""
        for reply in answers:
            self._wake()
            if self._player.line is None and self._player.state == WAITS:
                return False
            self._player.hear(spell(reply))
        return True

    def _said(self) -> Object:
        """Returns the agent's next command of a kind that replays record; other
        commands are answered here."""
        for _ in range(MAX_REFUSED):
            self._wake()
            if self._player.line is None:
                return LEAVE
            command = command_of(text_of(self._player.line))
            refusal = self._refusal(command)
            if refusal is None:
                return ENTER if command.get("key") == self._key else command
            self._player.hear(spell({"no": refusal}))
        return LEAVE

    def _wake(self) -> None:
        """Wakes a sleeper until it says something."""
        for _ in range(MAX_REFUSED):
            if self._player.state != SLEEPS:
                return
            self._player.go_on()

    def _refusal(self, command: Object) -> Optional[str]:
        """Returns why a command is rejected, or None."""
        if not self._has_entered:
            return None
        if command["do"] == "enter":
            return "twice"
        return (
            "spent" if self._used == self._quota and command["do"] != "leave" else None
        )


def with_new_keys(fixture: Fixture) -> Fixture:
    """A match with keys that nobody has seen, so that no program finds by its key what
    it has left somewhere."""
    return fixture._replace(keys=[secrets.token_hex(10) for _ in fixture.keys])


def repeat_agent(
    team: Team, fixture: Fixture, past: Sequence[PastCommand]
) -> Optional[Otherwise]:
    """Repeats the only agent of a team with this past; returns the first difference, or
    None."""
    player = team.players[0]
    try:
        team.start()
        return Alone(
            player, fixture.keys[player.number], fixture.setup.quota
        ).otherwise(past)
    finally:
        team.stop()


def with_repeats(
    match: PlayedMatch, agents: Sequence[AgentWords], fixture: Fixture, seconds: float
) -> PlayedMatch:
    """Adds the differences found by repeating each agent alone to a match; a match with
    faults is returned unchanged."""
    if match.faults:
        return match
    again = with_new_keys(fixture)
    replay = match.replay.decode()
    differences = [
        repeat_agent(
            alone(number, agents[number], again, fixture, seconds),
            again,
            past_of(replay, number),
        )
        for number in range(len(agents))
    ]
    return match._replace(
        faults=[str(difference) for difference in differences if difference]
    )
