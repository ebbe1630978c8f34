"""Games fix the settings of matches except those that a seed draws; records are played
matches, shown as a row or as a page.

The commands `run` and `hunt` and the functions of arena_lab/api.py play games.
"""
import dataclasses
import hashlib
import html
import json
import pathlib
from typing import Any, Dict, Iterator, List, NamedTuple, Optional, Sequence, Union

from arena_lab.pages.links import replay_link
from arena_lab.pages.match_page import page_of_replay
from arena_lab.play import kept_matches, referee, schedulers
from arena_lab.play.agent_files import AgentError, member
from arena_lab.play.matches import PlayedMatch
from arena_lab.play.repetitions import with_repeats
from arena_lab.play.schedules import Schedule, schedule_of
from arena_lab.play.parallel import over_processes
from arena_lab.play.summaries import Summary, summary_of, verdict_by
from arena_lab.play.teams import Game, digests_of
from arena_lab.rules.engines import EnginesDifferError
from arena_lab.rules.model import Verdict
from arena_lab.support.faults import ArenaError
from arena_lab.support.progress import along

SchedulerName = Union[str, schedulers.Maker]
# how high a match stands in a notebook
HEIGHT = 720


def maker_of(scheduler: SchedulerName) -> schedulers.Maker:
    """The scheduler that a word names, or one that is given as a function."""
    if callable(scheduler):
        return scheduler
    if scheduler in schedulers.SCHEDULER_MAKERS:
        return schedulers.SCHEDULER_MAKERS[scheduler]
    if ".py" not in scheduler:
        raise AgentError(
            f"{scheduler}: there is no such scheduler; there are {', '.join(schedulers.SCHEDULER_MAKERS)} and "
            "FILE.py:NAME"
        )
    maker: schedulers.Maker = member(scheduler, "scheduler")
    return maker


def name_of(scheduler: SchedulerName) -> str:
    return (
        scheduler
        if isinstance(scheduler, str)
        else getattr(scheduler, "__name__", "scheduler")
    )


def play_seed(
    game: Game, scheduler: SchedulerName, seed: int, program: Optional[str]
) -> "Record":
    """Plays the match of a seed under the scheduler's choices for it."""
    fixture = game.fixture(seed)
    empty = schedule_of(
        fixture,
        game.agents,
        f"{name_of(scheduler)} {seed}{game.where()}",
        [],
        game.limit,
    )
    return Record(
        *kept_matches.played_under(maker_of(scheduler)(seed), empty, program), program
    )


def play_again(schedule: Schedule, program: Optional[str]) -> "Record":
    """Replays a schedule, and returns the record."""
    return Record(schedule, kept_matches.played_again(schedule, program), program)


class Record(NamedTuple):
    """A match that was played: its schedule, what happened, and the program that
    played, or None for the Python model. In a notebook it shows itself as a page to
    watch."""

    schedule: Schedule
    match: PlayedMatch
    program: Optional[str]

    @property
    def verdict(self) -> Verdict:
        return self.match.verdict()

    @property
    def has_failed(self) -> bool:
        return self.match.has_failed()

    @property
    def replay(self) -> str:
        """The text of its replay."""
        return self.match.replay.decode()

    def page(self) -> str:
        """Returns the HTML page that shows the match."""
        return page_of_replay(
            self.program, self.match.replay, self.schedule.title(), self.match.refusals
        )

    def link(self, address: str) -> str:
        """Returns a link that shows the match on the page that plays in the browser,
        which is at this address: `play/index.html` of the site."""
        return replay_link(address, self.match.replay)

    def keep(self, folder: Union[str, pathlib.Path]) -> List[str]:
        """Writes the schedule, replay and page to a folder, as `--keep` does; returns
        the lines to print."""
        return kept_matches.write_find(
            pathlib.Path(folder), self.schedule, self.match, self.program
        )

    def exhausted_agents(self) -> List[int]:
        """The agents that have no commands left of their quota."""
        match = self.match.match
        return [
            number
            for number, agent in enumerate(match.agents)
            if agent.used == match.setup.quota
        ]

    def faults(self) -> List[str]:
        """Returns the faults of agents, and a line for each agent that has used all of
        its commands."""
        quota = self.schedule.fixture.setup.quota
        return [
            *self.match.faults,
            *(
                f"agent {agent}: has used all of its {quota} commands"
                for agent in self.exhausted_agents()
            ),
        ]

    def report(self) -> List[str]:
        """Returns the referee's explanation of an unsolved match."""
        return referee.report(self.match.match, self.match.faults)

    def repeat(self, seconds: float) -> "Record":
        """The match with what its agents say otherwise when each is repeated alone,
        unless one of them has a fault."""
        return self._replace(
            match=with_repeats(
                self.match, self.schedule.agents, self.schedule.fixture, seconds
            )
        )

    def judge(self) -> Verdict:
        """The verdict of the engine that played it."""
        return verdict_by(self.program, self.match)

    def summary(self) -> Summary:
        """Summarises the match, including agents that have used all of their
        commands."""
        return dataclasses.replace(
            summary_of(self.match, self.program), faults=self.faults()
        )

    def _repr_html_(self) -> str:
        return frame_page(self.page())


# names of version 0.9 in programs and notebooks, which the next release drops
OLD_NAMES = {
    "judged": "judge",
    "played": "match",
    "repeated": "repeat",
    "spent": "exhausted_agents",
    "told": "report",
}
for old_name, name in OLD_NAMES.items():
    setattr(Record, old_name, getattr(Record, name))


def frame_page(page: str) -> str:
    """A page as part of a notebook."""
    return f'<iframe srcdoc="{html.escape(page)}" style="width: 100%; height: {HEIGHT}px; border: 0"></iframe>'


class Row(Dict[str, Any]):
    """A row of a table: the settings and the result of a match. pandas.DataFrame
    accepts a list of rows."""

    def __init__(self, request: "MatchRequest", record: Record) -> None:
        setup = record.schedule.fixture.setup
        summary = record.summary()
        super().__init__(
            network=request.game.name,
            nodes=setup.nodes,
            links=len(setup.links),
            home=setup.home,
            holes=list(setup.holes),
            dark=[list(link_end) for link_end in setup.dark],
            agents=setup.agents,
            scheduler=name_of(request.scheduler),
            seed=request.seed,
            **summary.columns(),
            choices=len(record.schedule.choices),
            failed=record.has_failed,
            replay=summary.replay,
            faults=list(summary.faults),
            refused=record.match.refusals,
        )
        self._asked = request
        self._record: Optional[Record] = record

    def match(self) -> Record:
        """Returns the record of the match, which is played again unless it is still in
        memory."""
        if self._record:
            return self._record
        record = self._asked.play()
        if hashlib.sha256(record.match.replay).hexdigest() != self["replay"]:
            raise EnginesDifferError(
                "played again the match came to another replay: its agents do something else although they "
                "are told the same"
            )
        return record

    def forget(self) -> "Row":
        """Drops the match, which takes much more memory than the row."""
        self._record = None
        return self

    def line(self) -> str:
        """The row as a line of JSON."""
        return json.dumps(self, ensure_ascii=False)


class MatchRequest(NamedTuple):
    """A match that is asked for: a game, a scheduler, a seed, who plays, and whether
    its agents are repeated alone."""

    game: Game
    scheduler: SchedulerName
    seed: int
    program: Optional[str]
    repeats: bool = False

    @property
    def number(self) -> int:
        return self.seed

    def play(self) -> Record:
        record = play_seed(self.game, self.scheduler, self.seed, self.program)
        return record.repeat(self.game.limit) if self.repeats else record


class Rows(NamedTuple):
    """Plays matches that are asked for, in any process."""

    game: Game

    def play(self, request: MatchRequest) -> Row:
        return Row(request, request.play())

    def digests(self) -> Dict[str, str]:
        """The SHA-256 of each file of agents."""
        return digests_of(self.game.agents)


def rows_of(requests: Sequence[MatchRequest], workers: int = 1) -> Iterator[Row]:
    """The rows of matches, in order, by this number of processes."""
    if not requests:
        return
    job = Rows(requests[0].game)
    if workers > 1:
        for result in along(
            over_processes(job, requests, workers), len(requests), "match"
        ):
            if result.fault:
                raise StoppedError(result.fault)
            yield result.result
    else:
        yield from along(map(job.play, requests), len(requests), "match")


class StoppedError(ArenaError):
    """A process that plays has met a fault; says which."""
