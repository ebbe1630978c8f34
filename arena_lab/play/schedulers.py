"""Schedulers choose what happens next.

A scheduler is a function of the choices and of how the match stands; it gives one of
the choices. A maker is a function of a whole number that gives a scheduler. The command
line names makers: `fair`, or `FILE.py:NAME` for one of your own.

    def laggard(seed):
        def choose(choices, state):
            return choices[-1]
        return choose
"""
import itertools
import random
from typing import (
    Callable,
    Dict,
    List,
    NamedTuple,
    Optional,
    Protocol,
    Sequence,
    Set,
    Tuple,
)

from arena_lab.rules.delays import ODDS, SCALES, Delays, Turns
from arena_lab.rules.model import Match, Object, Place
from arena_lab.support.faults import ArenaError

ANSWER = "answer"
ARRIVE = "arrive"
WAKE = "wake"


class Choice(NamedTuple):
    """A possible next event: an agent's line (or the end of its input) is answered; an
    agent on a link arrives or is destroyed; a sleeping agent wakes."""

    do: str
    agent: int


class MatchView(Protocol):
    """How a match stands: where its agents are, what its whiteboards say, and what
    agents wait to be answered."""

    @property
    def match(self) -> Match:
        ...

    def said(self, agent: int) -> Optional[Object]:
        """The command of an agent that waits for an answer, as docs/FORMATS.md has it,
        or None."""


Scheduler = Callable[[Sequence[Choice], MatchView], Choice]
Maker = Callable[[int], Scheduler]
PACES = (0.02, 0.3, 1, 1, 5)
WAKINGS = (0.01, 0.1)


def fair(seed: int) -> Scheduler:
    """All that may happen next is as likely."""
    rng = random.Random(seed)
    return lambda choices, state: rng.choice(choices)


def weighted_scheduler(
    rng: random.Random, weight: Callable[[Choice, MatchView], float]
) -> Scheduler:
    """Choices are as likely as they weigh."""
    return lambda choices, state: rng.choices(
        choices, [weight(choice, state) for choice in choices]
    )[0]


def slow_agents(seed: int) -> Scheduler:
    """Some agents are slow to be answered, and some to arrive, for the whole match;
    sleepers wake seldom."""
    rng = random.Random(seed)
    waking = rng.choice(WAKINGS)
    paces: Dict[Tuple[str, int], float] = {}

    def weight(choice: Choice, state: MatchView) -> float:
        return (
            waking if choice.do == WAKE else paces.setdefault(choice, rng.choice(PACES))
        )

    return weighted_scheduler(rng, weight)


def slow_links(seed: int) -> Scheduler:
    """Some links are slow, each in its two directions, for the whole match."""
    rng = random.Random(seed)
    paces: Dict[Place, float] = {}

    def weight(choice: Choice, state: MatchView) -> float:
        if choice.do != ARRIVE:
            return 1
        agent = state.match.agents[choice.agent]
        return paces.setdefault((agent.node, agent.port), rng.choice(PACES))

    return weighted_scheduler(rng, weight)


def last_departed(seed: int) -> Scheduler:
    """Agents go as far as they can, and of those on links the one arrives that departed
    last. A seed chooses among agents that are to be answered."""
    rng = random.Random(seed)

    def choose(choices: Sequence[Choice], state: MatchView) -> Choice:
        other_choices = [choice for choice in choices if choice.do != ARRIVE]
        if other_choices:
            return rng.choice(other_choices)
        return max(choices, key=lambda choice: state.match.pool.index(choice.agent))

    return choose


def starved_scheduler(seed: int) -> Scheduler:
    """Nothing happens to one agent as long as anything else can happen; the others go
    on by chance. It is the agent whose number is the seed, counted round the team."""
    rng = random.Random(seed)

    def choose(choices: Sequence[Choice], state: MatchView) -> Choice:
        agent = seed % len(state.match.agents)
        other_choices = [choice for choice in choices if choice.agent != agent]
        return rng.choice(other_choices or choices)

    return choose


class Oblivious:
    """The oblivious schedule of a contest's first match, for agents that answer within
    their turn: between two turns all are answered, by their numbers, and each that
    sleeps wakes once if it may. The contest's seed is this number, in 64 hexadecimal
    digits."""

    def __init__(self, seed: int, delays: Delays = Delays(SCALES, ODDS)) -> None:
        self._turns = Turns(delays, f"{seed:064x}", 0)
        self._departed: Set[int] = set()
        self._awake: Set[int] = set()

    def __call__(self, choices: Sequence[Choice], state: MatchView) -> Choice:
        pool = state.match.pool
        for agent in sorted(set(pool) - self._departed):
            self._turns.departs(agent)
        self._departed = set(pool)
        answers = [choice for choice in choices if choice.do == ANSWER]
        return (
            answers[0]
            if answers
            else self._woken(choices) or self._arrival(choices, state)
        )

    def _woken(self, choices: Sequence[Choice]) -> Optional[Choice]:
        """The first that sleeps and has not woken since the last turn."""
        for choice in choices:
            if choice.do == WAKE and choice.agent not in self._awake:
                self._awake.add(choice.agent)
                return choice
        return None

    def _arrival(self, choices: Sequence[Choice], state: MatchView) -> Choice:
        """Takes turns until an agent arrives, or one that sleeps may wake again."""
        may_arrive = [choice.agent for choice in choices if choice.do == ARRIVE]
        while True:
            self._awake.clear()
            agent = self._turns.take(len(state.match.agents), state.match.pool)
            if agent in may_arrive:
                return Choice(ARRIVE, agent)
            woken = self._woken(choices)
            if woken:
                return woken


def oblivious(seed: int) -> Scheduler:
    """The oblivious schedule of a contest, with the delays that `./arena-lab
    tournament` gives it."""
    return Oblivious(seed)


def in_runs(runs: Sequence[Tuple[int, int]]) -> Scheduler:
    """A scheduler of (which of the choices, how often in a row); if only one thing can
    happen, nothing is used up, and behind the last run it is always the first."""
    numbers = itertools.chain.from_iterable(
        itertools.repeat(which, times) for which, times in runs
    )

    def choose(choices: Sequence[Choice], state: MatchView) -> Choice:
        return choices[0 if len(choices) == 1 else next(numbers, 0) % len(choices)]

    return choose


class ImpossibleError(ArenaError):
    """A choice of a recorded schedule is impossible at its position."""

    status = 1


class ScheduleEndedError(Exception):
    """A recorded schedule has no more choices."""


def recorded_scheduler(schedule: Sequence[Choice]) -> Scheduler:
    """The choices of a schedule, in order."""
    choices_left = enumerate(schedule, 1)

    def choose(choices: Sequence[Choice], state: MatchView) -> Choice:
        number, choice = next(choices_left, (0, None))
        if choice is None:
            raise ScheduleEndedError
        if choice not in choices:
            possible: List[str] = [f"{choice.do} {choice.agent}" for choice in choices]
            raise ImpossibleError(
                f"choice {number} is `{choice.do} {choice.agent}`, and what may happen there is: "
                f"{', '.join(possible)}"
            )
        return choice

    return choose


class ScheduleFollower:
    """Follows a schedule up to its first impossible choice, and then chooses uniformly
    at random. A corrected program is thus tried against the schedule that it failed
    under."""

    def __init__(self, schedule: Sequence[Choice]) -> None:
        self._schedule = schedule
        self._fair = fair(0)
        # how many choices were followed, and what might happen where the schedule was
        # left
        self.count = 0
        self.left: Sequence[Choice] = ()
        self.went_on = 0

    def __call__(self, choices: Sequence[Choice], state: MatchView) -> Choice:
        if not self.left and self.count < len(self._schedule):
            if self._schedule[self.count] in choices:
                self.count += 1
                return self._schedule[self.count - 1]
            self.left = choices
        self.went_on += 1
        return self._fair(choices, state)

    def __str__(self) -> str:
        whole = len(self._schedule)
        if self.count == whole:
            text = f"followed all {whole} choices of the schedule"
        elif self.left:
            choice = self._schedule[self.count]
            possible = ", ".join(f"{choice.do} {choice.agent}" for choice in self.left)
            text = (
                f"followed {self.count} of {whole} choices: the next is `{choice.do} {choice.agent}`, and what may "
                f"happen there is: {possible}"
            )
        else:
            text = f"followed {self.count} of {whole} choices: then nothing could happen any more"
        return (
            f"{text}; {self.went_on} fair choices came then" if self.went_on else text
        )


SCHEDULER_MAKERS: Dict[str, Maker] = {
    "fair": fair,
    "slow-agents": slow_agents,
    "slow-links": slow_links,
    "last-departed": last_departed,
    "starved": starved_scheduler,
    "oblivious": oblivious,
}
