"""Delays arrivals by the clock, as a contest may, to programs that must wait for them.

Elsewhere the lab tells an arrival as soon as a schedule has it come, so no program
waits for long, and one that gives up after two seconds is never seen to.
"""
import math
import random
import time
from typing import Dict, Optional, Sequence, Set

from arena_lab.play import kept_matches
from arena_lab.play.games import Record
from arena_lab.play.matches import play
from arena_lab.play.programs import Player, Team
from arena_lab.play.schedulers import ARRIVE, Choice, MatchView, ScheduleEndedError
from arena_lab.play.schedules import schedule_of
from arena_lab.play.teams import Game, runners_of
from arena_lab.rules.delays import PAUSE, SCALES

# seconds that no link takes in a contest whose delays and pause are the usual ones,
# with some turns for the picks
LATE = math.ceil(((1 << SCALES) + 64) * PAUSE)
SLICE = 0.02
UNTOLD = (
    "{} within {:g} s of `gone`, and was told nothing meanwhile: a link may take that long, so wait for the "
    "arrival without a timeout"
)


class LateArrivals:
    """A scheduler that holds the first arrival of each agent for some seconds of the
    clock; all else is fair. An agent that is destroyed is not held. A program that ends
    or says something while it is held fails, and the match ends."""

    def __init__(self, players: Sequence[Player], seconds: float = LATE) -> None:
        self._players = players
        self._seconds = seconds
        self._chance = random.Random(0)
        # by agent: the time until which its arrival is delayed, and its line count
        # before; and the agents delayed so far
        self._until: Dict[int, float] = {}
        self._before: Dict[int, int] = {}
        self._held: Set[int] = set()

    def __call__(self, choices: Sequence[Choice], state: MatchView) -> Choice:
        while True:
            other_choices = [
                choice for choice in choices if not self._is_held(choice, state)
            ]
            self._watch()
            if other_choices:
                return self._chance.choice(other_choices)
            time.sleep(SLICE)

    def _is_held(self, choice: Choice, state: MatchView) -> bool:
        """Returns whether the choice is an arrival that is still delayed."""
        number = choice.agent
        agent = state.match.agents[choice.agent]
        if (
            choice.do != ARRIVE
            or number in self._held
            or state.match.destroys(agent.node, agent.port)
        ):
            return False
        if number not in self._until:
            self._until[number] = time.monotonic() + self._seconds
            self._before[number] = self._players[number].line_count()
        if time.monotonic() < self._until[number]:
            return True
        self._held.add(number)
        return False

    def _watch(self) -> None:
        """Ends the match if a program whose arrival is delayed has ended or sent a
        line."""
        for number, before in self._before.items():
            reason: Optional[str] = (
                None if number in self._held else self._players[number].stirs(before)
            )
            if reason is not None:
                self._players[number].stop(UNTOLD.format(reason, self._seconds))
                raise ScheduleEndedError


def kept_waiting(game: Game, program: Optional[str]) -> Record:
    """A match of programs that are kept waiting. The black hole is far from the home
    base, so that no agent of a ring is destroyed on its first way."""
    fixture = game.fixture(game.network.nodes // 2 - 1)
    team = Team(
        fixture,
        {number: agent.words for number, agent in enumerate(game.agents)},
        game.limit,
        runners_of(game.agents, fixture),
    )
    schedule = schedule_of(
        fixture, game.agents, f"arrivals {LATE} s late{game.where()}", [], game.limit
    )
    match = play(
        kept_matches.engine_of(schedule, program),
        team,
        LateArrivals(team.players),
        fixture,
    )
    return Record(schedule._replace(choices=match.choices), match, program)
