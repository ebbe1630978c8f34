"""Cases of `arena explore` in which a host plays agents that are functions of what has
happened to them: which schedules are drawn, which one is told, and what is said of
naps, of rounds and of quotas."""
import functools
import json
from typing import List, Tuple

from arena_lab.rules.limits import MAX_TEXT
from tests.program.hosted_agents import (
    FAILING,
    RACE,
    SLEEPS,
    SOLVER,
    STOPS,
    WAKES,
    Agent,
    Step,
    as_agent,
    enter,
    explore,
    fails,
    heard,
    in_turn,
    is_lost,
    looks,
    say,
    sleeps,
    solves,
    stops,
    writes_team,
)
from tests.program.program_cases import case
from tests.support.counts import require
from tests.support.program_rows import DONE, REFUSED_TEXT, Stage, expect

# Which schedule is told.


@case("of drawn schedules the first that fails is told")
def first_failing(stage: Stage) -> None:
    first = next(
        it
        for it in (
            explore(stage, RACE, "--draws", n, "--seed", 3) for n in range(1, 40)
        )
        if it.counts["failed"]
    )
    for draws in (60, 200):
        result = explore(stage, RACE, "--draws", draws, "--seed", 3).found
        require(result == first.found, draws, result, first.found)


@case("a drawn schedule that fails is told though others make more moves")
def failing_is_told(stage: Stage) -> None:
    for seed in range(5):
        output = explore(stage, RACE, "--draws", 100, "--seed", seed)
        expectation = (FAILING, "fails") if output.counts["failed"] else (DONE, "comes")
        require((output.status, output.found["found"]) == expectation, seed, output)


@case("an agent that has failed at its start has failed under the first drawn schedule")
def fails_at_once(stage: Stage) -> None:
    output = explore(stage, [fails, as_agent(1, solves)], "--draws", 2)
    require(
        output.found
        == {"found": "breaks", "agent": 0, "failure": "program", "schedule": []},
        output,
    )


@case(
    "an agent that says a command before it has entered has failed, however it goes on"
)
def outside(stage: Stage) -> None:
    for words in ([], ["--draws", 2]):
        output = explore(stage, [SOLVER, looks], *words)
        expectation = {
            "found": "breaks",
            "agent": 1,
            "failure": "outside",
            "schedule": [],
        }
        require(output.found == expectation, words, output)


@case("an agent that sleeps and has not entered has failed under a drawn schedule")
def asleep(stage: Stage) -> None:
    output = explore(stage, [SOLVER, sleeps], "--draws", 2, "--spurious-wakeups", 0)
    require(output.found.get("failure") == "asleep", output)


@case("all agents that are lost are counted")
def two_lost(stage: Stage) -> None:
    output = explore(stage, [as_agent(0, is_lost), as_agent(1, is_lost)], "--draws", 3)
    require(output.counts["lost"] == [[2, 3]], output)


def walks_or_is_lost(history: List[str]) -> Step:
    """It enters the black hole if it enters before agent 0 has written; else it walks
    six times and leaves."""
    if not history:
        return enter(1)
    if not heard(history[0])["board"]:
        return say("depart", port=1) if len(history) == 1 else STOPS
    last = heard(history[-1]).get("ok")
    if last in ("gone", "bye"):
        return STOPS
    return (
        say("depart", port=0)
        if sum(heard(it).get("ok") == "here" for it in history) <= 6
        else say("leave")
    )


def writes_and_solves(history: List[str]) -> Step:
    return in_turn(
        history,
        enter(0),
        say("write", expect="", put="x"),
        say("depart", port=0),
        STOPS,
        say("accuse", port=1),
    )


@case(
    "a hunt for lost agents tells a schedule under which one is lost, and a hunt for moves one with the most"
)
def hunts(stage: Stage) -> None:
    team = [writes_and_solves, walks_or_is_lost]
    lost = explore(stage, team, "--draws", 200, "--objective", "lost")
    require(lost.found["found"] == "comes" and lost.found["lost"] == 1, lost)
    moves = explore(stage, team, "--draws", 200, "--objective", "moves")
    require(
        moves.found["found"] == "comes"
        and moves.found["moves"] == moves.counts["moves"][-1][0] > 5,
        moves,
    )


# Which schedules are drawn.


@case("both agents of a race come first under drawn schedules")
def both_come(stage: Stage) -> None:
    output = explore(stage, RACE, "--draws", 200)
    require(50 < output.counts["solved"] < 150, output)


@case("other seeds draw other schedules, also those of more than 16 bits")
def seeds(stage: Stage) -> None:
    output = {
        json.dumps(explore(stage, RACE, "--draws", 200, "--seed", seed).counts)
        for seed in (0, 1, 256, 65_536, 65_537)
    }
    require(len(output) > 3, output)


@case("the schedules behind the first 256 are others")
def streams(stage: Stage) -> None:
    once, twice = (
        explore(stage, RACE, "--draws", draws).counts["solved"] for draws in (256, 512)
    )
    require(twice != 2 * once, once, twice)


def sample_counts(stage: Stage, draws: int, *words: object) -> Tuple[int, int, int]:
    """What is counted of the first drawn schedules of a race."""
    counts = explore(stage, RACE, "--draws", draws, "--seed", 7, *words).counts
    return counts["solved"], counts["failed"], counts["turns"]


def counted_of(stage: Stage, number: int, *words: object) -> List[int]:
    """What is counted of the drawn schedule of this number."""
    before = sample_counts(stage, number, *words) if number else (0, 0, 0)
    return [
        new - old for new, old in zip(sample_counts(stage, number + 1, *words), before)
    ]


@case("every second schedule of a hunt is the one that is drawn without it")
def every_second(stage: Stage) -> None:
    for number in range(0, 24, 2):
        hunt_result, draw = (
            counted_of(stage, number, *words)
            for words in (("--objective", "moves"), ())
        )
        require(hunt_result == draw, number, hunt_result, draw)


@case("each schedule starves another agent")
def starve_agent(stage: Stage) -> None:
    output = explore(stage, RACE, "--draws", 2, "--scheduler", "starved")
    require(output.counts["solved"] == output.counts["failed"] == 1, output)


def walks_once(agent: int, history: List[str]) -> Step:
    """Goes to node 1 and writes there."""
    return in_turn(
        history,
        enter(agent),
        say("depart", port=0),
        STOPS,
        say("write", expect="", put=str(agent)),
    )


@case("of two agents on links the one arrives first that departed last")
def last_departed(stage: Stage) -> None:
    for seed in range(8):
        schedule = explore(
            stage,
            [as_agent(0, walks_once), as_agent(1, walks_once)],
            "--draws",
            1,
            "--scheduler",
            "last-departed",
            "--seed",
            seed,
        ).found["schedule"]
        # an agent's second turn departs, and its third arrives
        turns = [
            [at for at, second in enumerate(schedule) if second == agent]
            for agent in (0, 1)
        ]
        last = max((0, 1), key=lambda agent: turns[agent][1])
        require(turns[last][2] < turns[1 - last][2], seed, schedule)


def looks_and_solves(history: List[str]) -> Step:
    """It looks four times, and solves the match unless agent 1 has written until
    then."""
    if not history:
        return enter(0)
    if len(history) < 6:
        return say("look")
    if heard(history[5])["board"]:
        return say("accuse", port=0) if len(history) == 6 else STOPS
    return in_turn(history[6:], say("depart", port=0), STOPS, say("accuse", port=1))


def sleeps_and_writes(history: List[str]) -> Step:
    """It writes once it has woken five times."""
    if not history:
        return enter(1)
    if len(history) < 6:
        return SLEEPS
    return in_turn(history[6:], say("write", expect="", put="x"), say("leave"))


@case(
    "sleepers wake seldom beside slow agents, in some schedules ten times as seldom as in others"
)
def sleepers_wake_seldom(stage: Stage) -> None:
    output = explore(
        stage,
        [looks_and_solves, sleeps_and_writes],
        "--draws",
        2_000,
        "--scheduler",
        "slow-agents",
        "--spurious-wakeups",
        10,
    )
    # weight 10 in all schedules would give about 420, and weight 1 about 60
    require(150 < output.counts["failed"] < 320, output.counts)


# Limits and lines.


@case("a search stops at --max-states")
def states(stage: Stage) -> None:
    output = explore(stage, [SOLVER, stops], "--max-states", 2)
    require((output.status, output.fault) == (REFUSED_TEXT, "host: states"), output)


@case("each agent that has failed at its start is found")
def second_fails(stage: Stage) -> None:
    output = explore(stage, [stops, fails])
    require(
        output.found
        == {"found": "breaks", "agent": 1, "failure": "program", "schedule": []},
        output,
    )


def sends(line: bytes) -> Agent:
    """Enters, sends this line and stops."""
    return lambda history: in_turn(history, enter(0), line)


@case("a line that is longer than a server takes is denied, and a long text is written")
def long_lines(stage: Stage) -> None:
    output = explore(stage, [sends(b" " * 65_537), stops])
    require(
        output.found.get("found") == "fails" and output.counts["boards"] == 1, output
    )
    output = explore(stage, [sends(say("write", expect="", put="x" * 5_500)), stops])
    require(
        output.found.get("found") == "fails" and output.counts["boards"] == 2, output
    )


@case("a line of a host has at most 1,048,576 bytes, in whatever pieces it is read")
def longest_answer(stage: Stage) -> None:
    writes_team(stage, 2)
    for extra, number, request in (
        (0, 2, b'{"begin":0}\n{"begin":1}\n'),
        (1, 1, b'{"begin":0}\n'),
    ):
        answer = b" stops".rjust(MAX_TEXT + extra, b"0") + b"\n"
        expect(
            stage.run(["explore", "team.toml", "0"], answer),
            request,
            b"host: line %d\n" % number,
            REFUSED_TEXT,
        )


# Rounds, quotas and naps. These agents hold the newest thing alone that has happened to
# them.


def enters_again(agent: int, _history: List[str]) -> Step:
    return enter(agent)


def looks_again(history: List[str]) -> Step:
    return say("look") if history else enter(0)


@case(
    "a round that may go on for ever is fair unless an agent that can move has no turn in it"
)
def rounds(stage: Stage) -> None:
    for second, is_fair in (
        (stops, True),
        (as_agent(1, solves), False),
        (sleeps, True),
    ):
        output = explore(
            stage, [as_agent(0, enters_again), second], "--spurious-wakeups", 0, keeps=1
        )
        require(
            [output.found.get(it) for it in ("found", "round", "fair")]
            == ["endless", [0], is_fair],
            output,
        )
        require(output.status == FAILING, output)


@case(
    "a round in which an agent uses commands ends with its quota, so nothing is said of it"
)
def rounds_that_end(stage: Stage) -> None:
    for quota in (1, 10, 200):
        output = explore(stage, [looks_again, stops], quota=quota, keeps=1)
        require(
            output.found == {"found": "exceeds", "agent": 0, "commands": quota + 1},
            quota,
            output,
        )
        require(output.status == REFUSED_TEXT, output)


def waits(patience: int, history: List[str]) -> Step:
    """Agent 1 sleeps until agent 0 has written, and looks each time when it wakes.
    After more naps than its patience it takes agent 0 for lost, and accuses a safe
    link."""
    if not history:
        return enter(1)
    last = heard(history[-1])
    naps = history.count(WAKES)
    if history[-1] == WAKES:
        return say("look")
    if last.get("ok") != "here":
        return STOPS
    if last["board"]:
        return say("leave")
    return SLEEPS if naps <= patience else say("accuse", port=0)


def walks_and_writes(history: List[str]) -> Step:
    """Agent 0 goes to node 1 and back, writes at home, and accuses the black hole."""
    return in_turn(
        history,
        enter(0),
        say("depart", port=0),
        STOPS,
        say("depart", port=0),
        STOPS,
        say("write", expect="", put="x"),
        say("accuse", port=1),
    )


@case(
    "solves is said of agents that nap so often, and its commands and turns are theirs"
)
def naps(stage: Stage) -> None:
    output = [
        explore(
            stage,
            [walks_and_writes, functools.partial(waits, 9)],
            "--spurious-wakeups",
            count,
        ).found
        for count in range(10)
    ]
    for count, result in enumerate(output[:9]):
        require(result["found"] == "solves" and result["naps"] == count, count, result)
        # each nap is a waking and a look more, before agent 0 has written; to leave is
        # not counted
        require(result["commands"] == [4, count + 2], count, result)
        require(
            result["turns"] == output[0]["turns"] + 2 * count, count, result, output[0]
        )
    require(output[9]["found"] == "fails", output[9])
