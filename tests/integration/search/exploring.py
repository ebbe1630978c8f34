"""What the tests of `explore` share: the command, a game with one match, and what the
program answers of it."""
from typing import Any, List, Optional, Tuple

from arena_lab.__main__ import main, parser
from arena_lab.command_line.arguments import games_of
from arena_lab.play.teams import AgentWords, Game
from arena_lab.rules.fixtures import Fixture
from arena_lab.search.findings import ExploreAnswer
from arena_lab.search.machines import Machines
from arena_lab.search.program_search import SampleRequest, run_search
from arena_lab.search.sampled_runs import follow
from arena_lab.support.progress import NO_PROGRESS
from tests.support.matches import InFolder, program
from tests.support.output import run_call


class InExplore(InFolder):
    """Tests that explore by the program. `said` is what the last command printed."""

    output = ""

    def command(self, *words: object) -> int:
        """The exit status of `explore` with these words."""
        status, output, errors = run_call(
            main,
            [
                "explore",
                *map(str, words),
                "--program",
                program(),
                "--keep",
                str(self.folder / "find"),
            ],
        )
        self.output = output + errors
        return status

    def game(self, *words: str) -> Tuple[Game, Fixture]:
        """Parses a game with a single match."""
        (game,) = games_of(parser().parse_args(["explore", *words]))
        (fixture,) = game.fixtures()
        return game, fixture

    def explore(
        self,
        fixture: Fixture,
        agents: List[AgentWords],
        *,
        draws: Optional[SampleRequest] = None,
        view: Any = NO_PROGRESS,
        check: int = 0,
    ) -> ExploreAnswer:
        """What the program answers of all schedules, or of drawn ones. Then this many
        drawn schedules are followed."""
        machines = Machines(fixture, agents, 5)
        machines.start()
        try:
            answer = run_search(program(), fixture, machines, 1_000_000, view, draws)
            for seed in range(check):
                follow(fixture, agents, machines, seed, 5)
            return answer
        finally:
            machines.stop()
