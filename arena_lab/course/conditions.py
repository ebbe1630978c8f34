"""Conditions: what a contest may do to an agent, as a file says.

    networks = ["ring:6", "ring:8"]
    holes = 2
    schedulers = ["fair", "slow-agents"]
    seeds = 2

A course's file has them beside its teams, and a hall makes one of its [hand_ins].
`check --for FILE` plays what the file says, by draws of its own. So it plays other
matches than those that count, which are drawn as those are.
"""
import hashlib
import pathlib
import random
from typing import Any, Dict, FrozenSet, Iterable, Iterator, List, Mapping, NamedTuple

from arena_lab.play.games import maker_of
from arena_lab.play.schedulers import Maker, Scheduler
from arena_lab.rules import draws
from arena_lab.rules.fixtures import Fixture
from arena_lab.sweep import grid
from arena_lab.sweep.grid import Case, Grid, TeamRow


class CourseDraws(NamedTuple):
    """Draws values from a course's secret, so that teams cannot predict them."""

    secret: str

    def draw_digits(self, *words: object) -> str:
        """Digits."""
        return hashlib.sha256(
            "\0".join(map(str, [self.secret, *words])).encode()
        ).hexdigest()

    def keys(self, text: str, number: int, agents: int) -> List[str]:
        """Returns the agents' keys of a match, derived from the course's text."""
        return [
            self.draw_digits("key", text, number, agent)[:20] for agent in range(agents)
        ]


class Conditions(NamedTuple):
    """The conditions of matches by a file: settings, the folder of its networks and
    schedulers, and the secret of draws. `fixed_keys` are `home` and `ports` if the file
    fixes them."""

    text: str
    folder: pathlib.Path
    draws: CourseDraws
    grid: Grid
    fixed_keys: FrozenSet[str] = frozenset()

    def cases(self) -> Iterator[Case]:
        """All matches of all teams, in the order of the file."""
        return map(self._placed, self.grid.cases(self.draws.secret))

    def case(self, network: str, scheduler: str, number: int) -> Case:
        """Draws one more match, with a negative number that no match of the file
        has."""
        cases = (case for case in self.grid.cases(self.draws.secret))
        alike = [other for other in cases if other.network == network]
        case = alike[number % len(alike)]
        # a negative number, so that the keys differ from those of the file's matches
        return self._placed(
            case._replace(number=-1 - number, scheduler=scheduler, seed=number)
        )

    def with_named(self, names: Iterable[str]) -> "Conditions":
        """The same where these are not drawn, of `home` and `ports`: node 0 is the home
        base unless the file names another, and ports are the network's own."""
        return self._replace(fixed_keys=self.fixed_keys.union(names))

    def _placed(self, case: Case) -> Case:
        """Returns the match with drawn black holes, home base and ports where the file
        does not fix them. The draw does not depend on the team."""
        if not isinstance(self.grid.holes, int) and self.grid.holes not in (
            grid.BY_SEED,
            draws.DRAWN,
        ):
            return case
        words = (case.network, case.scheduler, case.seed, *case.holes)
        ports = self.grid.terms_on(case.network).ports
        is_named = "ports" in self.fixed_keys or self.grid.dark or ports == draws.GIVEN
        draw_settings = draws.Open(
            self.grid.home if "home" in self.fixed_keys else None,
            ports=None if is_named else draws.DRAWN,
        )
        rng = random.Random(self.draws.draw_digits("place", *words))
        match = draws.draw_match(self.grid.networks[case.network], rng, draw_settings)
        return case._replace(
            holes=tuple(match.holes), home=match.home, ports=match.ports
        )

    def fixture(self, case: Case) -> Fixture:
        """A match. Without the course's secret nobody can guess its keys."""
        fixture = self.grid.fixture(case)
        keys = self.draws.keys(self.text, case.number, fixture.setup.agents)
        return fixture._replace(team=case.team.name, keys=keys)

    def maker(self, name: str) -> Maker:
        """The scheduler of a name or a file."""
        return maker_of(str(self.folder / name) if ".py" in name else name)

    def seed(self, case: Case) -> int:
        """The seed that a match's scheduler gets, which is the same for all teams.
        Those of matches that differ in the seed alone follow one another."""
        digits = self.draws.draw_digits("seed", case.network, case.scheduler)
        return int(digits[:8], 16) + case.seed

    def scheduler(self, case: Case) -> Scheduler:
        return self.maker(case.scheduler)(self.seed(case))


def conditions_in(
    text: str,
    table: Mapping[str, Any],
    values: Dict[str, Any],
    teams: List[TeamRow],
    folder: pathlib.Path,
    course_draws: CourseDraws,
) -> Conditions:
    """Builds the conditions of a course from its text, its parsed values and its
    teams."""
    is_drawn = values["ports"] in (None, draws.DRAWN)
    fixed_names = {"home", "ports"} & set(table) - ({"ports"} if is_drawn else set())
    plain = {**values, "ports": None if is_drawn else values["ports"]}
    course_grid = grid.grid_in(plain, teams, folder)
    return Conditions(text, folder, course_draws, course_grid, frozenset(fixed_names))
