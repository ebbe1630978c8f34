"""Replays and scripts of matches that the lab's model plays at random, to be bent."""
import random
from typing import Dict, List, NamedTuple, Tuple

from arena_lab.rules.model import PRESENT, Match, Object, spell
from tests.support.drawn_rehearsals import ScriptMaker, files_of, ready_by_chance

LONG = 3000
TEXTS = (
    "",
    "a",
    "home",
    "bé",
    '"',
    "a\\b",
    "tab\there",
    "\x01",
    "line\nline",
    "x" * 31,
    "y" * 32,
    "z" * 70,
    "ü" * LONG,
    "l" * LONG,
    '{"at":3}',
    "/",
    "\u007f",
    "\U0001f600",
)
BOARDS = (0, 8, 64, 4096)


class RehearsalInput(NamedTuple):
    """A tournament's files by their names, and a script."""

    files: Dict[str, str]
    script: bytes


# Replays of matches.


def command(match: Match, number: int, rng: random.Random) -> Object:
    """A command by chance, mostly one that is taken where its agent is."""
    agent = match.agents[number]
    board = match.boards[agent.node] if agent.standing == PRESENT else ""
    port = rng.randrange(4)
    expect = board if rng.random() < 0.7 else rng.choice(TEXTS)
    kinds: List[Tuple[int, Object]] = [
        (6, {"do": "look"}),
        (8, {"do": "write", "expect": expect, "put": rng.choice(TEXTS)}),
        (14, {"do": "depart", "port": port}),
        (1, {"do": "accuse", "port": port}),
        (1, {"do": "leave"}),
        (2, {"do": "bad"}),
        (1, {"do": "enter"}),
    ]
    return rng.choices([kind for _, kind in kinds], [weight for weight, _ in kinds])[0]


def drawn_replay(rng: random.Random) -> bytes:
    """The replay of a match that is played by chance."""
    ready = ready_by_chance(0, rng.randint(1, 5), rng)
    match = Match(
        ready.match.setup._replace(board=rng.choice(BOARDS), quota=rng.randint(1, 40))
    )
    agents = match.setup.agents
    for number in range(agents):
        match.reply_to(number, {"do": "enter"})
    for _ in range(rng.randrange(60)):
        if match.pool and rng.random() < 0.5:
            match.deliver(rng.choice(match.pool))
        else:
            number = rng.randrange(agents)
            match.reply_to(number, command(match, number, rng))
    match.close()
    return match.replay().encode()


# Scripts of rehearsals.


def write_line(conn: int, rng: random.Random) -> bytes:
    """A line by which an agent writes."""
    write = {
        "do": "write",
        "expect": rng.choice(("", rng.choice(TEXTS))),
        "put": rng.choice(TEXTS),
    }
    return b"%d %s" % (conn, spell(write).encode())


def drawn_script(rng: random.Random) -> RehearsalInput:
    """A rehearsal of two matches in which agents walk and write by chance."""
    ready = []
    for game in range(2):
        first = ready_by_chance(game, rng.randint(1, 4), rng)
        ready.append(
            first._replace(
                match=Match(first.match.setup._replace(board=rng.choice(BOARDS)))
            )
        )
    maker = ScriptMaker(ready, rng)
    maker.all_depart()
    for _ in range(rng.randint(20, 100)):
        maker.anything(9)
    return RehearsalInput(
        files_of(ready), "".join(f"{line}\n" for line in maker.script).encode()
    )
