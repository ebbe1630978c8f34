"""An agent that is checked before it counts: the matches that conditions make for it,
what was tried of them, and which assumption of the agent a failure shows."""
import math
import os
import random
import signal
import threading
import time
from typing import (
    Any,
    Callable,
    Dict,
    Iterator,
    List,
    NamedTuple,
    Optional,
    Sequence,
    Set,
    Tuple,
)

from arena_lab.course.conditions import CourseDraws, Conditions, conditions_in
from arena_lab.play.games import MatchRequest, Record, SchedulerName
from arena_lab.play.schedulers import (
    ARRIVE,
    SCHEDULER_MAKERS,
    Choice,
    MatchView,
    Scheduler,
)
from arena_lab.play.teams import SPURIOUS_WAKEUPS, AgentWords, Game, fill_team
from arena_lab.rules import draws
from arena_lab.rules.fixtures import Fixture
from arena_lab.support import fields
from arena_lab.sweep import grid
from arena_lab.sweep.grid import Case, TeamRow

# of the draws of a check: the secret of a course is not known
SECRET = "a check"
TEAM = "you"
TITLE = "a check"
# how many matches are compared to tell a cause, and how many seconds that may take
SAMPLE_SIZE = 12
SECONDS = 30.0
SLOW = "starved"
# seconds between two looks at the time, and between two interrupts of a search whose
# time is up
SLICE = 0.25
REPEAT_SECONDS = 5.0


def at_once(seed: int) -> Scheduler:
    """Returns a scheduler that delivers agents on links before anything else
    happens."""
    rng = random.Random(seed)

    def choose(choices: Sequence[Choice], state: MatchView) -> Choice:
        arrivals = [choice for choice in choices if choice.do == ARRIVE]
        return rng.choice(arrivals or choices)

    return choose


class Cause(NamedTuple):
    """A wrong assumption that agents make: the condition under which it holds
    (`fixed_keys` of the course file, or a scheduler), and the advice to print if an
    agent solves all other matches under that condition."""

    where: str
    trusts: str
    fixed_keys: Tuple[str, ...] = ()
    by: Optional[SchedulerName] = None


CAUSES = (
    Cause(
        "ports are numbered as the network has them",
        "the two ends of a link may have different numbers, and those of one node say nothing of the next",
        ("ports",),
    ),
    Cause("node 0 is the home base", "take what {home} says", ("home",)),
    Cause(
        "node 0 is the home base and ports are numbered as the network has them",
        "no number of a node or a port says where a link leads",
        ("home", "ports"),
    ),
    Cause(
        "agents arrive at once",
        "a link takes as long as it likes, so others act before an arrival",
        by=at_once,
    ),
    Cause(
        "one agent waits until nothing else can happen",
        "agents act at the same time, so look again before you go by what was read",
        by=SLOW,
    ),
)


class CheckJob(NamedTuple):
    """An agent that is checked: its words, under which conditions, how many seconds it
    may compute, by which program it plays, how long the check may take, and whether
    agents are repeated."""

    agent: AgentWords
    conditions: Conditions
    limit: float
    program: Optional[str]
    seconds: float
    repeats: bool

    @property
    def networks(self) -> List[str]:
        return self.conditions.grid.names

    def game(self, name: str) -> Game:
        """The game on a network, of which a number draws what the conditions leave
        open."""
        conditions = self.conditions
        setup = conditions.fixture(conditions.case(name, "fair", 0)).setup
        holes = conditions.grid.holes
        ports = conditions.grid.terms_on(name).ports
        has_ports = (
            "ports" in conditions.fixed_keys or setup.dark or ports == draws.GIVEN
        )
        return Game(
            name,
            conditions.grid.networks[name],
            fill_team([self.agent], setup.agents),
            conditions.grid.home if "home" in conditions.fixed_keys else None,
            holes[0] if isinstance(holes, list) else (),
            setup.dark,
            setup.quota,
            setup.board,
            SPURIOUS_WAKEUPS,
            self.limit,
            ports=None if has_ports else draws.DRAWN,
        )

    def request(
        self, case: Case, is_first: bool = False, by: Optional[SchedulerName] = None
    ) -> MatchRequest:
        """A match. The program plays the first ones, and their agents are repeated."""
        fixture = self.conditions.fixture(case)
        name = case.scheduler
        return MatchRequest(
            self.game(case.network)._replace(
                match=fixture, origin=f" on {match_place(case)}"
            ),
            by or (name if name in SCHEDULER_MAKERS else self.conditions.maker(name)),
            self.conditions.seed(case),
            self.program if is_first else None,
            self.repeats and is_first,
        )

    def smallest(self, default: Sequence[str]) -> Sequence[str]:
        """Returns the usual networks if the conditions have all of them, else the
        smallest networks of the conditions."""
        nets = self.conditions.grid.networks
        if set(default) <= set(nets):
            return default
        return sorted(nets, key=lambda name: nets[name].nodes)[: len(default)]


def processor_seconds() -> float:
    """Seconds of a processor that this process and the programs of agents have taken. A
    machine that is busy with other work is not to try less."""
    return sum(os.times()[:4])


class CheckBudget:
    """The time budget of a check, in processor seconds and optionally in wall-clock
    seconds, with counts of the matches played and names of the steps left out. `report`
    takes a line for each step that has passed."""

    def __init__(
        self,
        seconds: float,
        by_clock: float = math.inf,
        report: Callable[[str], object] = print,
    ) -> None:
        self.report = report
        self._until = processor_seconds() + seconds
        self._late = time.monotonic() + by_clock
        self.left_out: List[str] = []
        self._numberings: Set[Tuple[str, str]] = set()
        self._homes: Set[Tuple[str, int]] = set()
        self._nodes: Dict[str, int] = {}
        self._schedulers: Dict[str, None] = {}

    def seconds_left(self) -> float:
        """Returns how many seconds are left."""
        return min(self._until - processor_seconds(), self._late - time.monotonic())

    def is_late(self) -> bool:
        """Returns whether the wall-clock limit is exceeded."""
        return time.monotonic() > self._late

    def add(self, name: str, fixture: Fixture, scheduler: str = "") -> None:
        """Counts a match."""
        setup = fixture.setup
        self._numberings.add((name, repr(setup.links)))
        self._homes.add((name, setup.home))
        self._nodes[name] = setup.nodes
        self._schedulers.update({scheduler: None} if scheduler else {})

    def __str__(self) -> str:
        homes = len(self._homes)
        nodes = sum(self._nodes.values())
        count = len(self._nodes)
        return (
            f"on {count} network{'s' * (count != 1)} with {len(self._numberings)} numberings of ports, from "
            f"{'every home base' if homes == nodes else f'{homes} of {nodes} home bases'}, under "
            f"{join_words(list(self._schedulers))}"
        )


class TimedProgress:
    """A bar that ends a hunt behind the first schedule after the time of a check, as
    Ctrl-C would."""

    def __init__(self, progress: Any, budget: CheckBudget) -> None:
        self._shown = progress
        self._tried = budget

    def update(self) -> None:
        self._shown.update()
        if self._tried.seconds_left() <= 0:
            raise KeyboardInterrupt

    def set_postfix_str(self, text: str) -> None:
        self._shown.set_postfix_str(text)


class Alarm:
    """A context manager that interrupts the main thread (as Ctrl-C does) when the
    budget of a check is exhausted. The wall clock counts too, because a program's
    processor time is known only after its end. Interrupts are repeated, since Python
    drops one that arrives during garbage collection. A search then returns its partial
    result. `has_rung` tells whether it interrupted."""

    def __init__(self, budget: CheckBudget) -> None:
        self.has_rung = False
        self._tried = budget
        self._until = time.monotonic() + budget.seconds_left()
        self._stopped = threading.Event()

    def __enter__(self) -> None:
        self._stopped = threading.Event()
        threading.Thread(target=self._wait, args=(self._stopped,), daemon=True).start()

    def __exit__(self, *_: object) -> None:
        self._stopped.set()

    def _wait(self, stop_event: threading.Event) -> None:
        seconds = SLICE
        while not stop_event.wait(seconds):
            if self._tried.seconds_left() <= 0 or time.monotonic() > self._until:
                self.has_rung = True
                seconds = REPEAT_SECONDS
                main = threading.main_thread().ident or 0
                signal.pthread_kill(main, signal.SIGINT)


def join_words(parts: Sequence[str]) -> str:
    """Parts of a sentence as a list."""
    return " and ".join([", ".join(parts[:-1]), parts[-1]] if len(parts) > 1 else parts)


def match_place(case: Case) -> str:
    """Returns the network, ports, home base and black hole of a match as text."""
    ports = draws.ports_text(case.ports)
    hole = f", black hole {case.hole}" if case.hole else ""
    return f"{case.network}{ports}, home {case.home or 0}{hole}"


def because(job: CheckJob, case: Case) -> Iterator[str]:
    """Yields the wrong assumption behind a failed match: at least a third of similar
    matches fail, and none under the condition of the assumption. A single match would
    show little."""
    until = time.monotonic() + SECONDS

    def fails(cause: Optional[Cause], threshold: int) -> bool:
        """Returns whether it fails as many of the matches."""
        count = 0
        for number in range(SAMPLE_SIZE):
            if count < threshold and time.monotonic() < until:
                count += play_similar(job, case, number, cause).has_failed
        return count >= threshold

    keys = set(job.conditions.fixed_keys)
    other_causes = [
        cause for cause in CAUSES if cause.by or not set(cause.fixed_keys) & keys
    ]
    if not fails(None, SAMPLE_SIZE // 3):
        return
    for cause in other_causes:
        if not fails(cause, 1) and time.monotonic() < until:
            yield f"where {cause.where} it solves all of {SAMPLE_SIZE} such matches: {cause.trusts}"
            return


def play_similar(
    job: CheckJob, case: Case, number: int, cause: Optional[Cause]
) -> Record:
    """Plays another match like one that failed, without what a cause leaves out."""
    conditions = job.conditions
    if cause:
        conditions = conditions.with_named(cause.fixed_keys)
    again = job._replace(conditions=conditions)
    other_case = conditions.case(case.network, case.scheduler, number)
    return again.request(other_case, by=cause.by if cause else None).play()


SAYS = (
    "title",
    "networks",
    "home",
    "holes",
    "dark",
    "schedulers",
    "seeds",
    "quota",
    "board",
    "ports",
)
FIELDS = {
    **{name: grid.FIELDS[name] for name in SAYS},
    "title": grid.FIELDS["title"]._replace(default=TITLE),
    "agents": grid.AGENTS,
    "conditions": fields.table("conditions", {}),
}


def conditions_of(
    table: Dict[str, Any], folder: Any, agent: AgentWords, agents: Optional[int] = None
) -> Conditions:
    """The conditions that a course's file says, for one team of these agents. Its teams
    are passed over, but for how many agents the first has."""
    teams = table.get("team") or [{}]
    count = {name: value for name, value in teams[0].items() if name == "agents"}
    course_values = {
        **count,
        **{name: value for name, value in table.items() if name in FIELDS},
    }
    values = fields.values_of(course_values, FIELDS, "a file of conditions")
    team = TeamRow(TEAM, values["agents"] if agents is None else agents, agent)
    return conditions_in(
        repr(course_values), table, values, [team], folder, CourseDraws(SECRET)
    )
