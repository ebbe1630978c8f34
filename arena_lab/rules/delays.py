"""The schedules of contests, as docs/MODEL.md has them: whom each turn picks, and how
long agents are on links. They use the words of the arena, so a seed gives the same
picks and delays here and there."""
from typing import Dict, NamedTuple, Optional, Sequence

from arena_lab.rules.chacha8 import delay_word, turn_word

ADAPTIVE = "adaptive"
OBLIVIOUS = "oblivious"
SCALES = 10
ODDS = 32
# default seconds before each turn of a contest
PAUSE = 0.005


class Delays(NamedTuple):
    """The delays of the oblivious schedule: one of `odds` draws for each scale gives a
    delay of 2**scale turns up to twice as many."""

    scales: int
    odds: int

    def by_word(self, word: int) -> int:
        """Returns how many turns a link takes by this word."""
        scale = word % self.odds
        return (
            (1 << scale) + word // self.odds % (1 << scale)
            if scale < self.scales
            else 0
        )


class Turns:
    """The turns of a match. The adaptive schedule has no delays, and each turn picks an
    agent on a link. The oblivious schedule picks any agent, and delivers it if it is on
    a link and its delay is over."""

    def __init__(self, delays: Optional[Delays], seed: str, match: int) -> None:
        self.turn = 0
        self._delays = delays
        self._seed = bytes.fromhex(seed)
        self._match = match
        self._due: Dict[int, int] = {}

    def departs(self, agent: int) -> None:
        """Notes that an agent has departed."""
        if self._delays:
            word = delay_word(self._seed, self._match, agent, self.turn)
            self._due[agent] = self.turn + self._delays.by_word(word)

    def take(self, agents: int, pool: Sequence[int]) -> Optional[int]:
        """Takes a turn of a match with this number of agents, of which these are on
        links in the order of their departures: gives the agent that may arrive now, if
        there is one."""
        word = turn_word(self._seed, self._match, self.turn)
        turn = self.turn
        self.turn += 1
        if self._delays is None:
            return pool[word % len(pool)] if pool else None
        agent = word % agents
        return agent if agent in pool and self._due.get(agent, 0) <= turn else None
