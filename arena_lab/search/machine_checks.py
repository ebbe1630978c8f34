"""How `explore` checks that agents are machines, which always answer a history alike.
The agents play drawn schedules, other processes play histories again, the Python model
searches small matches too, and merges of declared memories are followed."""
from typing import Any, FrozenSet, NamedTuple, Optional

from arena_lab.play.teams import INSIDE, Matches
from arena_lab.rules.engines import EnginesDifferError
from arena_lab.rules.fixtures import Fixture
from arena_lab.search.model_search import ExploredMatch, explore_match
from arena_lab.search.findings import FAILED, SOLVED, Comes, Finding, Solves
from arena_lab.search.sampled_runs import follow
from arena_lab.search.machines import Machines
from arena_lab.search.history_tree import NoFunctionError
from arena_lab.search.played_apart import PROCESSES, histories_of, play_apart

# for how many seconds of a processor the Python model searches a match beside the
# program, and how many states
SECONDS = 1.0
STATES = 20_000


class CheckCounts(NamedTuple):
    """Counts of successful checks of matches; `str` describes them."""

    # merges of declared memories, and how many of them there were
    matches_checked: int = 0
    merges: int = 0
    # drawn schedules that the agents played
    schedules: int = 0
    # matches that the Python model searched too, and how many there were
    searches: int = 0
    matches: int = 0
    is_wanted: bool = True
    # histories that agents played again in other processes
    apart: int = 0
    # what agents read or reach besides replies
    observations: FrozenSet[str] = frozenset()
    # whether the program ran the agents itself, which are modules
    are_modules: bool = False

    def plus(self, counts: "CheckCounts") -> "CheckCounts":
        """Returns the sum of two counts."""
        return CheckCounts(
            self.matches_checked + counts.matches_checked,
            self.merges + counts.merges,
            self.schedules + counts.schedules,
            self.searches + counts.searches,
            self.matches + counts.matches,
            self.is_wanted and counts.is_wanted,
            self.apart + counts.apart,
            self.observations | counts.observations,
            self.are_modules or counts.are_modules,
        )

    def since(self, counts: "CheckCounts") -> "CheckCounts":
        """Returns the difference from earlier counts."""
        return CheckCounts(
            self.matches_checked - counts.matches_checked,
            self.merges - counts.merges,
            self.schedules - counts.schedules,
            self.searches - counts.searches,
            self.matches - counts.matches,
            self.is_wanted,
            self.apart - counts.apart,
            self.observations,
            self.are_modules,
        )

    def __str__(self) -> str:
        observations = f"; the agents {' and '.join(sorted(self.observations))}, and may do something else another time"
        return self._checked() + (observations if self.observations else "")

    def _checked(self) -> str:
        if self.are_modules:
            return "the program ran the module itself"
        if not self.is_wanted:
            return "nothing was checked"
        lines = [
            f"{self.schedules} drawn schedules",
            f"{self.apart} histories told in other processes",
        ]
        if self.merges:
            lines.insert(
                0,
                f"{self.matches_checked} of {self.merges} merges of declared memories",
            )
        if self.searches:
            lines.append(
                f"the Python model's search of {self.searches} of {self.matches} matches"
            )
        return f"checked, and all agree: {', '.join(lines)}"


class Checks:
    """Checks a search, and counts its checks."""

    def __init__(self, machines: Machines, matches: Matches, schedules: int) -> None:
        """Each match gets its share of the schedules."""
        self._machines = machines
        self._matches = matches
        self._count = len(matches.fixtures)
        # of modules nothing is taken for granted that could be checked
        self._wanted = 0 if machines.modules else schedules
        self._seen = self._schedules = self._searched = self._apart = 0
        # memories before this number have been replayed in other processes
        self._told = 0
        # whether the Python model's search of each match has come to an end in time so
        # far
        self._is_small = all(agent.kind == INSIDE for agent in matches.agents)

    def check(
        self, fixture: Fixture, finding: Optional[Finding], progress: Any, number: int
    ) -> None:
        """Checks the program's finding of a match."""
        self._seen += 1
        if not self._wanted or finding is None:
            return
        if isinstance(finding, SOLVED):
            self._play_apart(fixture, number)
            first, last = (
                self._wanted * bound // self._count for bound in (number, number + 1)
            )
            for seed in range(first, last):
                follow(
                    fixture,
                    self._matches.agents,
                    self._machines,
                    seed,
                    self._matches.limit,
                )
            self._schedules += last - first
        if not isinstance(finding, Comes) and self._is_small:
            self._is_small = self._is_searched(fixture, finding, progress)
            self._searched += self._is_small

    def _play_apart(self, fixture: Fixture, number: int) -> None:
        """Has other processes tell the agents histories of the match of a number."""
        histories = histories_of(self._machines, self._matches.agents, self._told)
        self._told = len(self._machines.ways)
        for index in range(-(-PROCESSES // self._count)):
            seed = 1 + number + index * self._count
            self._apart += play_apart(
                fixture, self._matches.agents, self._matches.limit, histories, seed
            )

    def _is_searched(self, fixture: Fixture, finding: Finding, progress: Any) -> bool:
        """Returns whether the Python model's search comes to an end in time; then it
        must come to the same."""
        try:
            beside = explore_match(
                fixture,
                self._matches.agents,
                progress,
                STATES,
                self._matches.limit,
                SECONDS,
            )
        except NoFunctionError:
            # it refuses agents that enter as another one, of which the program says
            # that they fail
            if isinstance(finding, Solves):
                raise
            return False
        finally:
            progress.clear()
        return is_compared(fixture, finding, beside)

    def counts(self) -> CheckCounts:
        """Returns the counts so far."""
        beside = self._machines.beside
        return CheckCounts(
            beside.checked,
            beside.merged,
            self._schedules,
            self._searched,
            self._seen,
            bool(self._wanted),
            self._apart,
            self._machines.observations(),
            bool(self._machines.modules),
        )


def is_compared(fixture: Fixture, finding: Finding, beside: ExploredMatch) -> bool:
    """Returns whether the Python model's search went far enough for a comparison with
    the program's finding. Raises an error if they disagree."""
    worst = beside.explorer.worst
    has_failed = worst is not None and worst.has_failed
    fails = isinstance(finding, FAILED)
    if not beside.is_whole and not has_failed:
        return False
    if has_failed != fails:
        raise EnginesDifferError(
            f"home {fixture.setup.home} holes {fixture.setup.holes}: {'a' if fails else 'no'} schedule fails "
            f"by the program, and {'one' if has_failed else 'none'} by the Python model's search: {ODD}"
        )
    model_bounds = (
        worst.verdict.moves if worst else 0,
        0 if fixture.held else beside.explorer.most_lost,
    )
    program_bounds = (
        (finding.moves, 0 if fixture.held else finding.lost)
        if isinstance(finding, Solves)
        else model_bounds
    )
    if not fails and model_bounds != program_bounds:
        raise EnginesDifferError(
            f"home {fixture.setup.home} holes {fixture.setup.holes}: by the program the most moves and lost "
            f"agents are {program_bounds}, and {model_bounds} by the Python model's search: {ODD}"
        )
    return True


ODD = "the agents are no functions of what they are told, or the lab has a mistake, of which we would like to hear"
