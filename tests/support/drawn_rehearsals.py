"""Scripts of rehearsals that are drawn from a seed, with what
arena_lab/rules/rehearsal.py prints of them."""
import collections
import random
from typing import Counter, Dict, List, NamedTuple, Sequence

from arena_lab.rules import networks
from arena_lab.rules.fixtures import Fixture
from arena_lab.rules.model import Match, Setup, spell
from arena_lab.rules.rehearsal import Ready, SentReplies, Sessions
from tests.support.tournaments import cup_files


class DrawnRehearsal(NamedTuple):
    """A random rehearsal: files of the tournament by name, script, expected output per
    line, and the kinds of events."""

    files: Dict[str, str]
    script: List[str]
    expected: List[str]
    events: Counter[str]


def ready_by_chance(game: int, agents: int, rng: random.Random) -> Ready:
    nodes, links = networks.draw_network(rng, 12)
    ends = [(v, p) for v, p, _, _ in links] + [(w, q) for _, _, w, q in links]
    home = rng.randrange(nodes)
    holes = rng.sample([v for v in range(nodes) if v != home], rng.randrange(3))
    dark = [rng.choice(links)[:2]] if rng.random() < 0.4 else []
    setup = Setup(
        nodes,
        links,
        home,
        holes,
        agents,
        rng.randint(1, 40),
        rng.randrange(9),
        dark,
    )
    held_links = rng.sample(ends, rng.randrange(3))
    return Ready(
        Match(setup), held_links, [f"k{game}-{agent}" for agent in range(agents)]
    )


def files_of(ready: Sequence[Ready]) -> Dict[str, str]:
    """The tournament and its networks."""
    return cup_files(
        [
            Fixture(f"t{game}", match.setup, list(keys), list(held_links))
            for game, (match, held_links, keys) in enumerate(ready)
        ]
    )


class ScriptMaker:
    """Makes a script, instruction by instruction, and has what each prints."""

    def __init__(self, ready: Sequence[Ready], rng: random.Random) -> None:
        self.rehearsal = Sessions(ready)
        self.seen: Counter[str] = collections.Counter()
        self.chance = rng
        self.script: List[str] = []
        self.printed: List[str] = []

    def note(self, line: str, payload: SentReplies) -> None:
        self.script.append(line)
        self.seen.update(reply.get("ok") or f"no {reply['no']}" for _, reply in payload)
        self.printed.append(
            "".join(
                f"{conn} {spell(reply)}\n"
                for conn, reply in sorted(payload, key=lambda it: it[0])
            )
        )

    def say(self, conn: int, line: bytes) -> None:
        """A connection sends a line, whole or in pieces."""
        cut = (
            self.chance.randrange(len(line) + 1) if self.chance.random() < 0.2 else None
        )
        if cut is None and b"\xff" not in line:
            self.note(
                f"{conn} {line.decode()}", self.rehearsal.bytes_of(conn, line + b"\n")
            )
            return
        for piece in (line[: cut or 0], line[cut or 0 :] + b"\n"):
            if piece:
                self.note(
                    f"hex {conn} {piece.hex()}", self.rehearsal.bytes_of(conn, piece)
                )

    def draw(self, game: int) -> None:
        word = self.chance.getrandbits(32)
        (match, held_links, _) = self.rehearsal.ready[game]
        self.seen[f"pool of {len(match.pool)}"] += 1
        if match.pool and not match.closed:
            agent = match.agents[match.pool[word % len(match.pool)]]
            self.seen[
                "held"
                if (agent.node, agent.port) in held_links
                else "destroyed"
                if match.destroys(agent.node, agent.port)
                else "arrival"
            ] += 1
        self.note(f"draw {game} {word}", self.rehearsal.draw(game, word))

    def end(self, conn: int) -> None:
        self.seen["end of an agent"] += conn in self.rehearsal.plays.values()
        self.note(f"end {conn}", self.rehearsal.line(conn, None))

    def close(self, game: int) -> None:
        self.note(f"close {game}", self.rehearsal.close(game))

    def any_line(self) -> bytes:
        """A line of a client, mostly one that moves it."""
        rng = self.chance
        board = ["", "a", "bé", "123456789"]
        lines = [
            {"do": "look"},
            {"do": "enter", "key": rng.choice(list(self.rehearsal.seats))},
            {
                "do": "write",
                "expect": rng.choice(board),
                "put": rng.choice(board),
            },
            {"do": "leave"},
            {"do": "accuse", "port": rng.randrange(4)},
            {"do": "enter", "key": "nobody"},
            {"do": "jump"},
        ]
        weights = [4, 1, 6, 0.2, 0.2, 0.2, 1]
        if rng.random() < 0.5:
            return spell({"do": "depart", "port": rng.randrange(4)}).encode()
        if rng.random() < 0.05:
            return rng.choice([b"", b" \t\r", b"\xff", b"{", b"[]"])
        return spell(rng.choices(lines, weights)[0]).encode()

    def all_depart(self) -> None:
        """All agents enter, and all but some go."""
        keys = list(self.rehearsal.seats)
        for conn, key in enumerate(keys):
            self.say(conn, spell({"do": "enter", "key": key}).encode())
        for conn in range(len(keys)):
            match = self.rehearsal.ready[self.rehearsal.seats[keys[conn]][0]].match
            port = self.chance.randrange(len(match.far[match.setup.home]))
            self.say(conn, spell({"do": "depart", "port": port}).encode())

    def anything(self, last: int) -> None:
        """An instruction by chance; connections up to this one are used."""
        games = len(self.rehearsal.ready)
        number = self.chance.random()
        if number < 0.4:
            self.draw(self.chance.randrange(games))
        elif number < 0.405:
            self.end(self.chance.randrange(last + 1))
        elif number < 0.41:
            self.close(self.chance.randrange(games))
        else:
            self.say(self.chance.randrange(last + 1), self.any_line())


def draw_rehearsal(agents: int) -> DrawnRehearsal:
    """A rehearsal of two matches, one of this number of agents and one of 65 less
    that."""
    rng = random.Random(agents)
    ready = [
        ready_by_chance(0, agents, rng),
        ready_by_chance(1, 65 - agents, rng),
    ]
    files = files_of(ready)
    maker = ScriptMaker(ready, rng)
    maker.all_depart()
    for turn in range(4 * 65):
        maker.draw(turn % 2)
    for _ in range(300):
        maker.anything(70)
    for game in range(2):
        maker.close(game)
    for conn in range(0, 70, 7):
        maker.say(conn, b'{"do":"look"}')
    return DrawnRehearsal(files, maker.script, maker.printed, maker.seen)
