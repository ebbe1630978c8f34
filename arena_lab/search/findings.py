"""What the program finds of the schedules of a match (`arena explore`), each kind as a
type of its own."""
import dataclasses
from typing import (
    Any,
    Dict,
    Mapping,
    NamedTuple,
    Optional,
    Sequence,
    Tuple,
    Type,
    Union,
)

from arena_lab.rules import model
from arena_lab.rules.model import Verdict

Turns = Tuple[int, ...]
# a number of moves or lost agents, and how many schedules come to it
Pairs = Tuple[Tuple[int, int], ...]


@dataclasses.dataclass(frozen=True)
class Solves:
    """Every schedule solves the match: the most moves, lost agents and turns of all."""

    moves: int
    lost: int
    turns: int


@dataclasses.dataclass(frozen=True)
class Comes:
    """No drawn schedule fails: the worst of them."""

    moves: int
    lost: int
    schedule: Turns


@dataclasses.dataclass(frozen=True)
class Fails:
    """Under this schedule the team does not solve the match."""

    outcome: str
    moves: int
    lost: int
    schedule: Turns


@dataclasses.dataclass(frozen=True)
class Breaks:
    """Under this schedule an agent fails: its program does, at the close or before; or
    it says a command before it has entered; or it sleeps for ever."""

    agent: int
    failure: str
    schedule: Turns


@dataclasses.dataclass(frozen=True)
class Endless:
    """An infinite schedule: after `schedule` the turns of `round` repeat forever. If
    `fair`, each agent that can move throughout the round has a turn in it."""

    schedule: Turns
    round: Turns
    fair: bool


@dataclasses.dataclass(frozen=True)
class Exceeds:
    """An agent may use this many commands, more than its quota; the match is not
    explored."""

    agent: int
    commands: int


Failure = Union[Fails, Breaks, Endless]
Finding = Union[Solves, Comes, Failure, Exceeds]
SOLVED = (Solves, Comes)
FAILED = (Fails, Breaks, Endless)


def name_of(kind: Type[Any]) -> str:
    """How the program spells what it finds."""
    return kind.__name__.lower()


KINDS: Dict[str, Type[Any]] = {
    name_of(kind): kind for kind in (*SOLVED, *FAILED, Exceeds)
}


class SampleCounts(NamedTuple):
    """How many drawn schedules solve a match and fail, their turns, and how many come
    to each number of moves and of lost agents."""

    solved: int
    failed: int
    turns: int
    moves: Pairs = ()
    lost: Pairs = ()


class ModuleRun(NamedTuple):
    """The module that an agent of a match runs, or all run, by its SHA-256, and how the
    first one failed, in which function."""

    module: str
    failure: Optional[str] = None
    function: Optional[int] = None


class ExploreAnswer(NamedTuple):
    """The result of the program for one match, with seconds and counts. If `finding` is
    None, the program was stopped early, and `why` gives the reason. `unwoken` counts
    sleeping memories whose reaction to one more spurious wake-up was never explored,
    because their agents have used all allowed ones."""

    finding: Optional[Finding]
    seconds: float
    states: Optional[int] = None
    samples: Optional[SampleCounts] = None
    why: str = ""
    unwoken: int = 0
    modules: Tuple[ModuleRun, ...] = ()

    def module(self, agent: int) -> Optional[ModuleRun]:
        """The module that an agent runs, if the program runs it."""
        return (
            self.modules[agent if len(self.modules) > 1 else 0]
            if self.modules
            else None
        )


def frozen(value: Any) -> Any:
    """A value of JSON whose lists cannot be changed."""
    return tuple(map(frozen, value)) if isinstance(value, list) else value


def of_names(row: Mapping[str, Any], names: Tuple[str, ...]) -> Dict[str, Any]:
    """Returns the members of a row under these names, as hashable values."""
    return {name: frozen(row[name]) for name in names if name in row}


def finding_of(row: Mapping[str, Any]) -> Finding:
    """Parses the finding in the first line of a result."""
    kind = KINDS[row["found"]]
    finding: Finding = kind(
        **of_names(row, tuple(field.name for field in dataclasses.fields(kind)))
    )
    return finding


def answer_of(
    row: Mapping[str, Any],
    counts: Mapping[str, Any],
    modules: Sequence[Mapping[str, Any]],
    seconds: float,
    unwoken: int = 0,
) -> ExploreAnswer:
    """Parses the lines of a result."""
    return ExploreAnswer(
        finding_of(row),
        seconds,
        counts.get("states"),
        SampleCounts(**of_names(counts, SampleCounts._fields))
        if "solved" in counts
        else None,
        unwoken=unwoken,
        modules=tuple(
            ModuleRun(**of_names(module, ModuleRun._fields)) for module in modules
        ),
    )


def turns_of(finding: Union[Comes, Failure]) -> Turns:
    """Returns the agents of the schedule's turns, in order."""
    return (
        finding.schedule + finding.round
        if isinstance(finding, Endless)
        else finding.schedule
    )


def verdict_of(finding: Finding) -> Optional[Verdict]:
    """Returns the verdict of the program's schedule, or None if the finding has
    none."""
    if isinstance(finding, Comes):
        return Verdict(model.SOLVED, finding.moves, finding.lost)
    return (
        Verdict(finding.outcome, finding.moves, finding.lost)
        if isinstance(finding, Fails)
        else None
    )
