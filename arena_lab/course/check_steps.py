"""The steps of a check: matches, late arrivals, drawn and hunted schedules, and every
schedule of small networks. A check ends at the first failure."""
from typing import Any, Callable, List, NamedTuple, Optional, Sequence, Tuple

from arena_lab.course.check_jobs import (
    Alarm,
    CheckBudget,
    CheckJob,
    TimedProgress,
    because,
    join_words,
    match_place,
)
from arena_lab.play.agent_files import AgentError
from arena_lab.play.games import Record, Row, play_again, rows_of
from arena_lab.play.late_arrivals import LATE, kept_waiting
from arena_lab.play.schedules import Schedule
from arena_lab.play.teams import INSIDE
from arena_lab.rules import draws
from arena_lab.search.history_tree import NoFunctionError
from arena_lab.search.hunts import Hunt, Hunter
from arena_lab.search.search_results import explore_games
from arena_lab.support.progress import bar
from arena_lab.sweep.grid import Case

# the networks of drawn and hunted schedules, and those of all schedules; and who draws
SEARCH_NETWORKS = ("ring:5", "ring:6", "ring:8")
EXPLORE_NETWORKS = ("ring:4", "ring:5")
BY_TURNS = ("slow-links", "fair", "slow-agents")
MAX_STATES = 100_000
# how many schedules are drawn, and how many of these in any case, and how many hunted
DRAWS = 100
LEAST = 24
HUNT_RUNS = 40


class Finding(NamedTuple):
    """The first thing to mend: what is wrong, fact by fact, and the match that shows
    it; and whether the match shows it again when it is played without a clock."""

    lines: List[str]
    record: Record
    is_repeatable: bool = True


# phrase for the last line of a check ("" if the step was left out), and the first
# failure
Step = Tuple[str, Optional[Finding]]
CheckStep = Callable[[CheckJob, CheckBudget], Step]


def check_agent(job: CheckJob) -> Step:
    """Runs all steps of a check. Returns the last line to print, and the first failure,
    if any."""
    budget = CheckBudget(job.seconds)
    right, wrong = by_steps(job, (matches, wait, search, every), budget)
    if wrong is not None:
        return "", wrong
    over = f"; left out after {job.seconds:g} s: {join_words(budget.left_out)}"
    return f"Right {join_words(right)}: {budget}{over if budget.left_out else ''}", None


def by_steps(
    job: CheckJob, steps: Sequence[CheckStep], budget: CheckBudget
) -> Tuple[List[str], Optional[Finding]]:
    """Runs steps in order up to the first failure. Returns the phrases of the steps
    that passed."""
    right: List[str] = []
    for step in steps:
        text, wrong = step(job, budget)
        if wrong is not None:
            return [], wrong
        right += [text] if text else []
    return right, None


def matches(job: CheckJob, budget: CheckBudget) -> Step:
    """Plays the matches."""
    rows: List[Row] = []
    for case in job.conditions.cases():
        row = next(iter(rows_of([job.request(case, True)])))
        budget.add(case.network, job.conditions.fixture(case), case.scheduler)
        if row["failed"]:
            lines = failure(
                row.match(), f"on {match_place(case)} under {case.scheduler}"
            )
            return "", Finding([*lines, *because(job, case)], row.match())
        rows.append(row)
    row_with_refusals = next((row for row in rows if row["refused"]), None)
    budget.report(f"{len(rows)} matches on {', '.join(job.networks)}: all solved")
    if row_with_refusals is None:
        return f"on all {len(rows)} matches", None
    return "", Finding(
        ["lines are refused, which cost commands", *row_with_refusals["refused"]],
        row_with_refusals.match(),
    )


def failure(record: Record, where: str) -> List[str]:
    """Returns the facts of a failed match, one per line."""
    return [
        f"{where} the match came to {record.verdict}",
        *record.report(),
        *record.faults(),
        *record.match.refusals,
    ]


def wait(job: CheckJob, budget: CheckBudget) -> Step:
    """Delays the first arrivals, so that programs with a timeout fail. Agents inside
    the lab have no clock, so they are skipped."""
    if job.agent.kind == INSIDE:
        return "", None
    name = job.smallest(EXPLORE_NETWORKS)[-1]
    game = job.game(name)
    record = kept_waiting(game._replace(home=game.home or 0, ports=None), job.program)
    if record.has_failed:
        return "", Finding(
            failure(record, f"on {name} with arrivals {LATE} s late"), record, False
        )
    budget.report(f"a match on {name} with arrivals {LATE} s late: solved")
    return f"with arrivals {LATE} s late", None


def search(job: CheckJob, budget: CheckBudget) -> Step:
    """Draws schedules, then hunts for one, until the team fails under one."""
    names = job.smallest(SEARCH_NETWORKS)
    draw_count, wrong = draw(job, names, budget)
    hunt_count, wrong = (0, wrong) if wrong else hunt(job, names, budget)
    if wrong is not None:
        return "", wrong
    budget.report(
        f"{draw_count} schedules of {', '.join(names)} were drawn and {hunt_count} were hunted: none fails"
    )
    return (
        f"under {draw_count} schedules that were drawn and {hunt_count} that were hunted",
        None,
    )


def draw_few(job: CheckJob, budget: CheckBudget) -> Step:
    """Draws schedules alone, as many as somebody waits for who writes an agent."""
    draw_count, wrong = draw(job, job.smallest(SEARCH_NETWORKS)[:2], budget)
    return f"under {draw_count} schedules that were drawn" if draw_count else "", wrong


def draw(
    job: CheckJob, names: Sequence[str], budget: CheckBudget
) -> Tuple[int, Optional[Finding]]:
    """Draws schedules on each network in turn; gives how many. Matches whose ports and
    home base are drawn alternate with plain ones, as some mistakes show there."""
    number = 0
    with bar(DRAWS, "schedule") as progress_bar:
        while number < DRAWS and (
            budget.seconds_left() > 0 or number < LEAST and not budget.is_late()
        ):
            case = drawn_case(job, names, number)
            budget.add(case.network, job.conditions.fixture(case), case.scheduler)
            record = job.request(case).play()
            if record.has_failed:
                progress_bar.clear()
                return number, under(
                    record.schedule,
                    f"{case.scheduler} {number} on {match_place(case)}",
                    job,
                    case,
                )
            number += 1
            progress_bar.update()
        progress_bar.clear()
    budget.left_out += (
        [f"{DRAWS - number} of {DRAWS} drawn schedules"] if number < DRAWS else []
    )
    return number, None


def drawn_case(job: CheckJob, names: Sequence[str], number: int) -> Case:
    """The match of a drawn schedule."""
    turn = number // len(names)
    by = [*dict.fromkeys([*BY_TURNS, *job.conditions.grid.schedulers])]
    conditions = job.conditions
    if turn // len(by) % 2 == 0:
        conditions = conditions.with_named(("home", "ports"))
    return conditions.case(names[number % len(names)], by[turn % len(by)], number)


def hunt(
    job: CheckJob, names: Sequence[str], budget: CheckBudget
) -> Tuple[int, Optional[Finding]]:
    """Hunts on each network; gives how many schedules were tried."""
    count = 0
    for networks_left, name in zip(range(len(names), 0, -1), names):
        hunter = hunt_network(job, name, (HUNT_RUNS - count) // networks_left, budget)
        count += hunter.tried if hunter else 0
        if hunter and hunter.best is not None and hunter.best.has_failed:
            return count, under(
                hunter.schedule(), f"a schedule of {name} that was hunted", job
            )
    budget.left_out += (
        [f"{HUNT_RUNS - count} of {HUNT_RUNS} hunted schedules"]
        if count < HUNT_RUNS
        else []
    )
    return count, None


def hunt_network(
    job: CheckJob, name: str, runs: int, budget: CheckBudget
) -> Optional[Hunter]:
    """Hunts for a failing schedule on one network; returns None if the time budget is
    used up."""
    if budget.seconds_left() <= 0:
        return None
    with bar(runs, "schedule") as progress_bar:
        progress = TimedProgress(progress_bar, budget)
        hunter = Hunter(Hunt(job.game(name), runs=runs), progress)
        try:
            hunter.search(["generate", "target", "shrink"])
        except KeyboardInterrupt:
            if budget.seconds_left() > 0:
                raise
        progress_bar.clear()
    return hunter


def under(
    schedule: Schedule, where: str, job: CheckJob, case: Optional[Case] = None
) -> Finding:
    """Returns the finding for a schedule under which the team fails."""
    record = play_again(schedule, job.program)
    cause = because(job, case) if case else ()
    return Finding([*failure(record, f"under {where}"), *cause], record)


def every(job: CheckJob, budget: CheckBudget) -> Step:
    """Tries every schedule of small networks, unless they are too many or the agent
    cannot be explored: of the smallest with all numberings of its ports, or sixteen,
    and of the other as it is numbered."""
    right = []
    alarm = Alarm(budget)
    for is_plain, name in enumerate(job.smallest(EXPLORE_NETWORKS)):
        text, wrong = every_of(job, name, bool(is_plain), budget, alarm)
        if wrong is not None:
            return "", wrong
        right += [text] if text else []
    return f"under every schedule of {join_words(right)}" if right else "", None


def every_of(
    job: CheckJob, name: str, is_plain: bool, budget: CheckBudget, alarm: Alarm
) -> Step:
    """Tries every schedule of a network."""
    game = job.game(name)
    ports = draws.DRAWN if isinstance(game.ports, str) and not is_plain else None
    games = game._replace(home=game.home or 0, ports=ports).drawn_games()
    ring = name.removeprefix("ring:")
    text = (f"a ring of {ring}" if ring != name else name) + (
        f" with {len(games)} numberings of its ports" * bool(ports)
    )
    try:
        with alarm:
            result: Any = explore_games(games, MAX_STATES, job.program)
    except (AgentError, NoFunctionError) as fault:
        budget.report(f"not every schedule of {text} was tried: {fault}")
        return "", None
    except KeyboardInterrupt:
        if not alarm.has_rung:
            raise
        result = None
    if result is not None and result.fails and result.worst is not None:
        return "", Finding(
            failure(result.worst, f"under a schedule of {text}"), result.worst
        )
    if result is None or not result.solves:
        budget.left_out.append(f"every schedule of {text}")
        return "", None
    budget.report(f"every schedule of {text}: {result.states} states, all solve")
    for numbered_game in games:
        budget.add(name, numbered_game.fixture(0))
    return text, None
