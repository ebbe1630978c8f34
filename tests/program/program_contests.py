"""Plays a contest of two matches on the program over TCP, and checks its files.

Both matches have one seed. In each, several agents are on links at the same time, one
of them on a link that is held, and one is destroyed. Which turn a delivery was made at
depends on the clock, but not who arrives: each turn takes the next word of its match's
stream, and the word picks out of the pool, or under the oblivious schedule out of all
agents. So the log of a match is compared with those words, whenever its clients may
have come.
"""
import json
import pathlib
import socket
from typing import Callable, List, NamedTuple, Optional, Sequence, Set, Tuple

from arena_lab.rules.printed import table
from arena_lab.rules.chacha8 import word
from arena_lab.rules.delays import Delays
from arena_lab.rules.fixtures import Fixture
from arena_lab.rules.model import (
    AWAY,
    OVER,
    Match,
    Object,
    Place,
    begin_match,
    judge,
    objects_of,
    spell,
)
from arena_lab.rules.networks import ring
from tests.program.program_cases import case
from tests.support.counts import FailedCheckError, require
from tests.support.program_rows import Stage, expect
from tests.support.servers import Run, Server, enter, serve
from tests.support.tournaments import match, write_cup

TOP = pathlib.Path(__file__).resolve().parents[2]
SEED = bytes(range(32))
TURNS = 400
PAUSE = 5
# a contest in which the wrong words could have made the deliveries too, as on a machine
# that is too slow, says nothing and is played again
TRIES = 3


class Side(NamedTuple):
    """A match on a ring, on which node 0 is the home base and port 0 leads to the next
    node: how many nodes; the black hole; the link that is held, as its departure; and
    what its agents do, each by the steps of a word."""

    team: str
    nodes: int
    hole: int
    held: Place
    agents: Sequence[str]

    def key(self, agent: int) -> str:
        return f"{self.team}-{agent}"

    def fixture(self) -> Fixture:
        return match(
            self.team,
            ring(self.nodes),
            [self.hole],
            len(self.agents),
            quota=20,
            board=8,
            held=[self.held],
        )


# 0 and 1 depart by that port, a accuses the link of port 0, l leaves. The last agent is
# held, and the one before it is destroyed.
SIDES = [
    Side("red", 6, 3, (0, 1), ["00a", *["0011l", "01010l", "0l"] * 3, "000", "1"]),
    Side("blue", 5, 2, (0, 0), [*["1100l", "10101l", "1l"] * 3, "111", "0"]),
]
STEPS = {
    "0": '{"do":"depart","port":0}',
    "1": '{"do":"depart","port":1}',
    "a": '{"do":"accuse","port":0}',
    "l": '{"do":"leave"}',
}


# What the words say of a replay.


def delivered_agent(
    match: Match, held_links: Set[Place], picked_value: int
) -> Optional[int]:
    """The agent that a turn picks, if its Deliver is kept."""
    agent = match.agents[picked_value]
    position = (agent.node, agent.port)
    return (
        None
        if position in held_links or (agent.lost and match.destroys(*position))
        else picked_value
    )


def drawn_delivery(match: Match, held_links: Set[Place], number: int) -> Optional[int]:
    """Returns the agent delivered in a turn that draws this number, or None."""
    return (
        delivered_agent(match, held_links, match.pool[number % len(match.pool)])
        if match.pool
        else None
    )


def picked_blindly(match: Match, held_links: Set[Place], number: int) -> Optional[int]:
    """The same if a turn picks one of all agents by this word, and links have no
    delay."""
    picked_value = number % len(match.agents)
    return (
        delivered_agent(match, held_links, picked_value)
        if picked_value in match.pool
        else None
    )


class Rule(NamedTuple):
    """A schedule: optional delays, the agent delivered for a number, and whether turns
    are recorded."""

    delays: Optional[Delays]
    delivered: Callable[[Match, Set[Place], int], Optional[int]]
    has_turns: bool


ADAPTIVE = Rule(None, drawn_delivery, False)
OBLIVIOUS = Rule(Delays(0, 1), picked_blindly, True)


def may_be(
    rule: Rule,
    match: Match,
    held_links: Set[Place],
    words: Sequence[int],
    turns: Set[int],
) -> Set[int]:
    """Returns the possible numbers of turns before the next event, given those before
    the previous one."""
    results = set(turns)
    new = set(turns)
    while new:
        new = {
            turn + 1
            for turn in new
            if turn < len(words)
            and rule.delivered(match, held_links, words[turn]) is None
        } - results
        results |= new
    return results


def made_by(
    rule: Rule, replay: str, held_links: Set[Place], words: Sequence[int]
) -> bool:
    """Returns whether turns with these numbers, in order, produce exactly the
    deliveries of a replay."""
    head, *events = objects_of(replay)
    match = begin_match(head)
    turns = {0}
    for event in events:
        turns = may_be(rule, match, held_links, words, turns)
        if event["do"] == "deliver":
            turns = {
                turn + 1
                for turn in turns
                if turn < len(words)
                and rule.delivered(match, held_links, words[turn]) == event["agent"]
            }
        match.play(event)
    return len(words) in turns


def draws_of(stream: int) -> List[int]:
    return [word(SEED, stream, index) for index in range(TURNS)]


# The contest.


class Heard(NamedTuple):
    """What came of a contest: the run, what the clients of each match heard, and the
    replays."""

    run: Run
    heard: List[List[str]]
    replays: List[str]


def client(server: Server, key: str, steps: str) -> socket.socket:
    """A client that has entered and said all that it will say, and has ended its
    input."""
    made = server.connect(
        enter(key) + "".join(f"{STEPS[step]}\n" for step in steps).encode()
    )
    made.shutdown(socket.SHUT_WR)
    return made


def all_heard(connection: socket.socket) -> str:
    with connection, connection.makefile("rb") as answers:
        return answers.read().decode()


def serve_all(stage: Stage) -> Tuple[Run, List[List[str]]]:
    """Serves the contest to its agents, which all come at once."""
    sessions = sum(len(side.agents) for side in SIDES)
    with serve(
        stage.program,
        stage.folder,
        turns=TURNS,
        pause=PAUSE,
        sessions=sessions,
        grace=10_000,
        prefix="hosted",
    ) as server:
        clients = [
            [
                client(server, side.key(agent), steps)
                for agent, steps in enumerate(side.agents)
            ]
            for side in SIDES
        ]
        heard = [[all_heard(first) for first in of_side] for of_side in clients]
        return server.wait_for_end(), heard


def contest(stage: Stage, rule: Rule) -> Heard:
    write_cup(stage.folder, [side.fixture() for side in SIDES], rule.delays, SEED.hex())
    for old in stage.folder.glob("*.jsonl"):
        old.unlink()
    run, heard = serve_all(stage)
    expect(run, run.stdout)
    names = sorted(path.name for path in stage.folder.glob("*.jsonl"))
    require(
        names == [f"hosted{number}.jsonl" for number in range(len(SIDES))],
        f"the replays are {names}",
    )
    return Heard(run, heard, [(stage.folder / name).read_text() for name in names])


# Checks of a contest.


def match_of(side: Side, replay: str) -> Match:
    """Replays a side's match, and checks its setup and replies."""
    head, *events = objects_of(replay)
    match = begin_match(head)
    setup = match.setup
    if (setup.nodes, setup.holes, setup.agents) != (
        side.nodes,
        [side.hole],
        len(side.agents),
    ):
        raise FailedCheckError(
            f"the replay of {side.team} is of another match: {spell(head)}"
        )
    for event in events:
        match.play(event)
    require(
        match.replay() == replay,
        f"the replay of {side.team} is another when it is played anew",
    )
    return match


def told_to(match: Match, agent: int) -> str:
    """Returns the lines that an agent's client must hear: its replies, and the end of
    the match if it waits."""
    replies: List[Object] = [
        event["reply"]
        for event in match.log
        if event.get("agent") == agent and event["reply"]
    ]
    if match.agents[agent].standing == AWAY:
        replies.append(OVER)
    return "".join(f"{spell(reply)}\n" for reply in replies)


def check_side(
    rule: Rule, number: int, side: Side, replay: str, heard: Sequence[str]
) -> Match:
    """Checks a side's replay against its schedule and its clients' lines, and returns
    the match."""
    match = match_of(side, replay)
    if not made_by(rule, replay, {side.held}, draws_of(number)):
        raise FailedCheckError(
            f"the words of stream {number} do not make the deliveries of {side.team}"
        )
    lost = len(side.agents) - 2
    held_links = len(side.agents) - 1
    if any(
        event["do"] == "deliver" and event["agent"] == held_links for event in match.log
    ):
        raise FailedCheckError(
            f"{side.key(held_links)} was delivered over the link that is held"
        )
    require(match.agents[lost].lost, f"{side.key(lost)} was not destroyed")
    waiting = {
        agent for agent, first in enumerate(match.agents) if first.standing == AWAY
    }
    require(
        waiting == {lost, held_links},
        f"in the match of {side.team} agents {sorted(waiting)} are on links at the end",
    )
    for agent, text in enumerate(heard):
        if text != told_to(match, agent):
            raise FailedCheckError(
                f"{side.key(agent)} heard {text!r}, and its replay has {told_to(match, agent)!r}"
            )
    return match


def is_telling(rule: Rule, replays: Sequence[str]) -> bool:
    """Returns whether other words do not make the deliveries: those of another match's
    stream, and equal ones."""
    rest = [[draws_of(1 - number), [0] * TURNS] for number in range(len(SIDES))]
    return not any(
        made_by(rule, replay, {side.held}, words)
        for side, replay, wrong in zip(SIDES, replays, rest)
        for words in wrong
    )


def check_table(stage: Stage, output: bytes, matches: Sequence[Match]) -> None:
    """Checks that the table has the verdict of each match, also when it is computed
    from replays."""
    verdicts = [judge(match) for match in matches]
    require(
        [verdict.outcome for verdict in verdicts] == ["guess 4", "silent"],
        f"the verdicts are {verdicts}",
    )
    for number, (outcome, moves, lost) in enumerate(verdicts):
        expect(
            stage.run(["judge", f"hosted{number}.jsonl"]),
            f"{outcome} moves {moves} lost {lost}\n".encode(),
        )
    rows = [(side.team, verdict) for side, verdict in zip(SIDES, verdicts)]
    expect(Run(0, output, b""), table(rows).encode())


def judged_by_turns(stage: Stage, replay: str, number: int, turns: str) -> Run:
    """The judging of a replay of a match by these turns of its events."""
    (stage.folder / "bent.turns").write_text(turns)
    return stage.run(
        [
            "judge",
            replay,
            "--turns",
            "bent.turns",
            "--tournament",
            "cup.toml",
            "--match",
            str(number),
        ]
    )


def text_of(turns: Sequence[int]) -> str:
    return "".join(f"{turn}\n" for turn in turns)


def without(replay: str, turns: Sequence[int], index: int) -> Tuple[str, List[int]]:
    """A replay and its turns without the event at a place."""
    head, *events, _end = replay.splitlines()
    remaining = [*events[:index], *events[index + 1 :]]
    text = (
        "\n".join(
            [
                head,
                *remaining,
                json.dumps({"end": len(remaining)}, separators=(",", ":")),
            ]
        )
        + "\n"
    )
    return text, [*turns[:index], *turns[index + 1 :]]


def check_left_out(
    stage: Stage,
    number: int,
    replay: str,
    turns: Sequence[int],
    index: int,
    text_given: str,
) -> None:
    """A replay from which the last delivery of an agent that stays on its link is left
    out stands no appeal."""
    text, remaining = without(replay, turns, index)
    (stage.folder / "left.jsonl").write_text(text)
    expect(
        judged_by_turns(stage, "left.jsonl", number, text_of(remaining)),
        b"",
        f"left.jsonl: {text_given}\n".encode(),
        4,
    )


def last_destructions(events: Sequence[dict]) -> List[int]:
    """The places of the deliveries that destroy their agents."""
    return [
        index
        for index, event in enumerate(events)
        if event["do"] == "deliver" and event["reply"] is None
    ]


def check_turns(stage: Stage, number: int, replay: str) -> None:
    """Checks that `judge` accepts a replay with its own turns, and with no others."""
    own = f"hosted{number}.jsonl"
    text = (stage.folder / f"hosted{number}.turns").read_text()
    turns = [int(line) for line in text.splitlines()]
    events = objects_of(replay)[1:]
    verdict = stage.run(["judge", own]).stdout
    expect(judged_by_turns(stage, own, number, text), verdict)
    deliveries = [
        index for index, event in enumerate(events) if event["do"] == "deliver"
    ]
    for delivery in deliveries[:3]:
        # those behind are as much later, so that none falls
        bent = [turn + (at >= delivery) for at, turn in enumerate(turns)]
        summary = f"agent {events[delivery]['agent']} arrives in turn {turns[delivery]}, before place {delivery}"
        expect(
            judged_by_turns(stage, own, number, text_of(bent)),
            b"",
            f"{own}: {summary}\n".encode(),
            4,
        )
        if delivery + 1 < len(turns):
            # what follows an arrival happens in its turn
            crowded_value = [
                *turns[: delivery + 1],
                turns[delivery],
                *turns[delivery + 2 :],
            ]
            expect(
                judged_by_turns(stage, own, number, text_of(crowded_value)),
                b"",
                f"bent.turns: turn of place {delivery + 1}\n".encode(),
                4,
            )
    for delivery in last_destructions(events)[:1]:
        summary = f"agent {events[delivery]['agent']} arrives in turn {turns[delivery]}, before place {delivery}"
        check_left_out(stage, number, replay, turns, delivery, summary)
    count = len(turns)
    expect(
        judged_by_turns(stage, own, number, text + f"{turns[-1]}\n"),
        b"",
        f"bent.turns: {count + 1} turns, {count} events\n".encode(),
        4,
    )


def check_contest(stage: Stage, rule: Rule) -> None:
    for _ in range(TRIES):
        result = contest(stage, rule)
        sides = zip(SIDES, result.replays, result.heard)
        matches = [check_side(rule, number, *each) for number, each in enumerate(sides)]
        check_table(stage, result.run.stdout, matches)
        writing = [path.name for path in stage.folder.glob("hosted*.turns")]
        if rule.has_turns:
            for number, replay in enumerate(result.replays):
                check_turns(stage, number, replay)
        elif writing:
            raise FailedCheckError(
                f"turns were written under the adaptive schedule: {writing}"
            )
        if is_telling(rule, result.replays):
            return
    raise FailedCheckError(
        "other words make the deliveries, too: the machine is too slow"
    )


@case(
    "who arrives in a contest is who the words of the match's stream pick, and nobody over a held link"
)
def words_are_dealt(stage: Stage) -> None:
    check_contest(stage, ADAPTIVE)


@case("under the oblivious schedule the words pick among all agents of the match")
def words_pick_among_all(stage: Stage) -> None:
    check_contest(stage, OBLIVIOUS)
