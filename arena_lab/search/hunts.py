"""Looks for schedules: fair draws first, then Hypothesis, which changes the most
promising ones and makes its find small.

Whether a team fails has no degrees that a search could climb, and some mistakes show in
one of ten fair draws and in one of four hundred of Hypothesis's; of others it is the
other way round. So a hunt for a failure begins with the schedules that `run` plays.
"""
import functools
import pathlib
import unittest
from typing import Any, Callable, List, NamedTuple, Optional, Sequence, Tuple

from arena_lab.play import teams
from arena_lab.play.matches import PlayedMatch, play
from arena_lab.play.repetitions import with_repeats
from arena_lab.play.schedulers import Scheduler, fair, in_runs
from arena_lab.play.schedules import Schedule, schedule_of
from arena_lab.play.teams import Game
from arena_lab.rules.fixtures import Fixture
from arena_lab.rules.rehearsal import Rehearsal
from arena_lab.search.minimising import Cut, Runs, noting_scheduler, runs_of
from arena_lab.support.missing import require

FAILURE = "failure"
MOVES = "moves"
LOST = "lost"
RUNS = 3000
MAX_BLOCKS = 60
LONGEST_BLOCK = 40
# how many schedules a hunt draws before it changes some, and how many it tries to make
# a drawn one small
DRAWS = 300
SMALLER = 500
# how many keys and numberings of ports each black hole is tried with
NUMBERS = 64

Blocks = Sequence[Tuple[int, int]]


class Hunt(NamedTuple):
    """The objective of a hunt (a failure, the most moves or the most lost agents) and
    its game."""

    game: Game
    looked_for: str = FAILURE
    any_home: bool = False
    runs: int = RUNS
    seed: int = 0
    database: Optional[pathlib.Path] = None
    # whether a team fails if one of its agents does not say the same when it is
    # repeated alone
    repeats: bool = False

    def origin(self) -> str:
        return f"hunt for {self.looked_for} {self.seed}{self.game.where()}"

    def key(self) -> bytes:
        """Returns the key under which Hypothesis stores the examples of this hunt."""
        game = self.game
        facts = (
            game.quota,
            game.board,
            game.naps,
            self.looked_for,
            self.any_home,
            *([True] if self.repeats else []),
        )
        places = game.home, game.holes, game.dark, game.match, game.ports
        network = game.name, game.network, *places
        return repr((network, facts, [agent[:2] for agent in game.agents])).encode()


class Stop(Exception):
    """A schedule is what was looked for: Hypothesis makes it small."""


class HuntedMatch(NamedTuple):
    """A tried schedule, and its worth for the objective."""

    worth: int
    has_failed: bool
    fixture: Fixture
    match: PlayedMatch


class Hunter:
    """A hunt: what it looks for, what it tried, and the best until now."""

    def __init__(self, hunt: Hunt, progress: Any) -> None:
        self.asked = hunt
        self.tried = 0
        # how many schedules were tried when the team failed first
        self.failed_at: Optional[int] = None
        self.best: Optional[HuntedMatch] = None
        self.wanted: Optional[int] = None
        self.was_stopped = False
        self._shown = progress
        self._kept: Any = None
        self._fixture = functools.lru_cache(maxsize=None)(hunt.game.fixture)
        game = hunt.game
        nodes = game.network.nodes
        self._homes: Sequence[Optional[int]]
        # how many matches: each black hole with NUMBERS keys and numberings of ports
        self._numbers = NUMBERS * (1 if game.is_fixed() else nodes - 1)
        is_any = hunt.any_home or game.home is None
        self._homes = range(nodes) if is_any and not game.match else [game.home]

    def play(
        self, home: Optional[int], match: int, scheduler: Scheduler
    ) -> HuntedMatch:
        """Plays a schedule, and keeps it if it is the best."""
        fixture = self._fixture(match, home)
        game = self.asked.game
        played_match = play(
            Rehearsal(fixture),
            teams.Together(game.agents, fixture, game.limit),
            scheduler,
            fixture,
        )
        if self.asked.repeats:
            played_match = with_repeats(played_match, game.agents, fixture, game.limit)
        verdict = played_match.verdict()
        worth = {FAILURE: 0, MOVES: verdict.moves, LOST: verdict.lost}[
            self.asked.looked_for
        ]
        trial = HuntedMatch(worth, played_match.has_failed(), fixture, played_match)
        self.tried += 1
        if trial.has_failed and self.failed_at is None:
            self.failed_at = self.tried
        if self.best is None or (trial.has_failed, worth) > (
            self.best.has_failed,
            self.best.worth,
        ):
            self.best = trial
            self._shown.set_postfix_str(str(verdict))
        self._shown.update()
        return trial

    def draw(self) -> None:
        """Plays the schedules that `run` draws, at most half of those that are left,
        until the team fails under one."""
        first = self.asked.seed * DRAWS
        runs_left = self.asked.runs - self.tried
        for number in range(first, first + min(DRAWS, (runs_left + 1) // 2)):
            match = number % self._numbers
            home = self._homes[number * NUMBERS // self._numbers % len(self._homes)]
            numbers: List[int] = []
            if self.play(
                home, match, noting_scheduler(fair(number), numbers)
            ).has_failed:
                self._make_small(home, match, runs_of(numbers))
                return

    def _make_small(self, home: Optional[int], match: int, runs: Runs) -> None:
        """Makes a schedule small after which the team fails."""

        def fails(runs: Runs) -> bool:
            hunted_match = self.play(home, match, in_runs(runs))
            if hunted_match.has_failed:
                self.best = hunted_match
            return hunted_match.has_failed

        Cut(runs, fails, SMALLER)

    def search(self, phases: Sequence[str]) -> None:
        """One search by Hypothesis; it ends early once it has what it looks for, made
        small."""
        test = self._test(phases)
        try:
            test()
        except unittest.SkipTest:
            # no earlier example exists, and the phases allow no others
            pass
        except (Stop, require("hypothesis").errors.Flaky):
            # Hypothesis calls a test flaky whose failure does not recur, as with
            # nondeterministic programs
            if self.best is None or not self.best.has_failed and self.wanted is None:
                raise

    def schedule(self) -> Schedule:
        """The schedule of the best."""
        if self.best is None:
            raise ValueError("nothing was tried")
        game = self.asked.game
        return schedule_of(
            self.best.fixture,
            game.agents,
            self.asked.origin(),
            self.best.match.choices,
            game.limit,
        )

    def _database(self) -> Any:
        """Returns the database of Hypothesis: a folder, or memory for the duration of
        the hunt."""
        if self._kept is None:
            stores = require("hypothesis.database")
            folder = self.asked.database
            self._kept = (
                stores.DirectoryBasedExampleDatabase(folder)
                if folder
                else stores.InMemoryExampleDatabase()
            )
        return self._kept

    def _test(self, phases: Sequence[str]) -> Callable[[], None]:
        hypothesis = require("hypothesis")
        hunt = self.asked
        strategies = require("hypothesis.strategies")
        settings = hypothesis.settings(
            max_examples=max(1, hunt.runs - self.tried),
            deadline=None,
            report_multiple_bugs=False,
            print_blob=False,
            database=self._database(),
            verbosity=hypothesis.Verbosity.quiet,
            suppress_health_check=list(hypothesis.HealthCheck),
            phases=[hypothesis.Phase[phase] for phase in phases],
        )
        agents = len(hunt.game.agents)
        blocks = strategies.tuples(
            strategies.integers(0, max(1, agents - 1)),
            strategies.integers(1, LONGEST_BLOCK),
        )

        def trial(home: Optional[int], match: int, blocks: Blocks) -> None:
            hunted_match = self.play(home, match, in_runs(blocks))
            hypothesis.target(float(hunted_match.worth))
            if (
                hunted_match.has_failed
                or self.wanted is not None
                and hunted_match.worth >= self.wanted
            ):
                self.best = hunted_match
                raise Stop

        draws = hypothesis.given(
            strategies.sampled_from(list(self._homes)),
            strategies.integers(0, self._numbers - 1),
            strategies.lists(blocks, max_size=MAX_BLOCKS),
        )
        # a seed takes the database away, so it comes before the settings
        test: Callable[[], None] = settings(hypothesis.seed(hunt.seed)(draws(trial)))
        test._hypothesis_internal_database_key = hunt.key()  # type: ignore[attr-defined]
        return test


def run_hunter(hunter: Hunter) -> None:
    """Searches, then minimises the failure. An interrupt ends the search and keeps its
    result."""
    try:
        if hunter.asked.looked_for == FAILURE:
            look_for_failure(hunter)
            return
        hunter.search(["reuse", "generate", "target", "shrink"])
        best = hunter.best
        if best is not None and not best.has_failed and best.worth > 0:
            hunter.wanted = best.worth
            hunter.search(["reuse", "shrink"])
            hunter.best = max(
                hunter.best or best,
                best,
                key=lambda trial: (trial.has_failed, trial.worth),
            )
    except KeyboardInterrupt:
        hunter.was_stopped = True


def look_for_failure(hunter: Hunter) -> None:
    """Tries earlier finds, then draws, then lets Hypothesis search, until the team
    fails."""
    hunter.search(["reuse", "shrink"])
    if hunter.failed_at is None:
        hunter.draw()
    if hunter.failed_at is None and hunter.tried < hunter.asked.runs:
        hunter.search(["generate", "target", "shrink"])
