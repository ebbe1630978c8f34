"""Compares what the search finds of all schedules with a plain look at all of them, for
teams and matches by chance.

    python3 -m tests.port.teams [--teams N] [--seed S]

The search is that of bhs_explore, compiled as plain Rust (tests/port/stripped.py), and
tests/port/engine.py looks at every state. Where every schedule solves, moves, losses,
turns and commands are the same; else the schedule that the search names is played, and
comes to what the search says. A line names the seed of each team that differs. The last
line reads `N passed, M failed`, and the exit status is 1 if one failed.
"""
import argparse
import collections
import random
import subprocess
import sys
from typing import Counter, Dict, List, NamedTuple, Tuple

from arena_lab.rules import networks
from tests.port import searching
from tests.port.engine import (
    OVER,
    All,
    Game,
    Match,
    Memory,
    TooManyStatesError,
    Words,
    again,
)
from tests.support.counts import report_counts

TEAMS = 3_000
TEXTS = ("", "a", "bb")
WITHOUT_END = 10**9
NETWORKS = ("ring:3", "ring:4", "ring:5", "complete:4")


def drawn_command(rng: random.Random) -> Words:
    """A step by chance."""
    return rng.choice(
        [
            ("depart", rng.randrange(3)),
            ("depart", rng.randrange(2)),
            ("write", rng.choice(TEXTS), rng.choice(TEXTS)),
            ("look",),
            ("sleeps",),
            ("accuse", rng.randrange(3)),
            rng.choice([("leave",), ("stops",), ("bad",), ("enter",), ("fails",)]),
        ]
    )


def drawn_match(rng: random.Random) -> Match:
    """A small match by chance."""
    network = networks.network_named(rng.choice(NETWORKS))
    ends: List[Dict[int, Tuple[int, int]]] = [{} for _ in range(network.nodes)]
    for v, p, w, q in network.links:
        ends[v][p] = (w, q)
        ends[w][q] = (v, p)
    far = tuple(tuple(row[port] for port in range(len(row))) for row in ends)
    home, *rest = rng.sample(range(network.nodes), network.nodes)
    places = [(v, port) for v, row in enumerate(far) for port in range(len(row))]
    return Match(
        far,
        home,
        tuple(rest[: rng.choice((1, 1, 1, 1, 0, 2))]),
        tuple(rng.sample(places, rng.choice((0, 0, 0, 0, 1)))),
        tuple(rng.sample(places, rng.choice((0, 0, 0, 0, 1)))),
        rng.choice((1, 2, 2, 2, 3)),
        rng.choice((4, 8, 1_000, 1_000)),
        rng.choice((0, 1, 8)),
        rng.choice((0, 0, 1, 2)),
    )


def path_in(match: Match, rng: random.Random, node: int, role: int) -> List[Words]:
    """Generates a walk that reaches what it can and accuses a destroying link if it
    meets one."""
    words: List[Words] = []
    remaining = {*range(len(match.far))} - {node, *match.holes}
    for _ in range(6 * len(match.far)):
        doomed_value = [
            p for p in range(len(match.far[node])) if match.dooms((node, p))
        ]
        if doomed_value and not remaining:
            return [*words, ("accuse", doomed_value[role % len(doomed_value)])]
        safe = [p for p in range(len(match.far[node])) if p not in doomed_value]
        if not safe:
            break
        new = [p for p in safe if match.far[node][p][0] in remaining]
        port = rng.choice(new or safe)
        node = match.far[node][port][0]
        remaining.discard(node)
        words.append(("depart", port))
    return words


def drawn_script(match: Match, rng: random.Random, role: int) -> List[Words]:
    """What agents of a role do if nothing keeps them from it: often what solves, with
    some more, and sometimes with a mistake."""
    script = path_in(match, rng, match.home, role)
    if rng.random() < 0.2:
        script = [drawn_command(rng) for _ in range(rng.randrange(1, 5))]
    extra = (("look",), ("sleeps",), ("write", "", "a"), ("write", "a", "bb"))
    for _ in range(rng.choice((0, 1, 2))):
        script.insert(rng.randrange(len(script) + 1), rng.choice(extra))
    if script and rng.random() < 0.3:
        script[rng.randrange(len(script))] = drawn_command(rng)
    front = rng.choice((("sleeps",), ("look",))) if rng.random() < 0.1 else None
    return [*([front] if front else []), ("enter",), *script]


class DrawnMachines:
    """Machines by chance: each holds its role, its place in the script, and a mood, in
    which it does something else."""

    def __init__(self, seed: int, match: Match, rng: random.Random) -> None:
        self.seed = seed
        self.roles = rng.choice((1, match.agents))
        self.scripts = [
            drawn_script(match, rng, number) for number in range(self.roles)
        ]
        self.moody = rng.choice((0, 0, 0.1, 0.4))
        self.back = rng.choice((0, 0, 0, 0.2))

    def start(self, agent: int) -> Memory:
        return agent % self.roles, 0, ""

    def after(self, memory: Memory, words: Words) -> Memory:
        role, position, _ = memory
        if words in (("gone",), OVER):
            return role, position, words[0]
        rng = random.Random(f"{self.seed} {memory} {words}")
        mood = str(rng.randrange(3)) if rng.random() < self.moody else ""
        next_place = position + 1
        if rng.random() < self.back:
            next_place = rng.randrange(next_place)
        return role, next_place, mood

    def does(self, memory: Memory) -> Words:
        role, position, mood = memory
        if mood == "gone" or position >= len(self.scripts[role]):
            return ("stops",)
        rng = random.Random(f"{self.seed} {memory}")
        if mood == "over":
            return ("fails",) if rng.random() < 0.1 else ("stops",)
        return drawn_command(rng) if mood else self.scripts[role][position]


def head_of(match: Match) -> str:
    """The line by which the search is given a match."""
    links = [
        number
        for v, row in enumerate(match.far)
        for p, (w, q) in enumerate(row)
        if (v, p) < (w, q)
        for number in (v, p, w, q)
    ]
    head = (match.home, match.agents, match.quota, match.board, match.wakeups)
    groups = (
        (len(match.far), *head),
        links,
        match.holes,
        [number for end in match.dark for number in end],
        [number for end in match.held for number in end],
    )
    return " / ".join(" ".join(map(str, group)) for group in groups)


def seen_in(words: List[str]) -> Words:
    """Parses a question into an observation of the agent."""
    kind, *rest = words
    if kind == "here":
        ports, outcome, view = rest
        return ("here", int(ports), None if outcome == "-" else int(outcome), view[1:])
    if kind == "changed":
        return kind, rest[0][1:]
    return tuple(words)


def spell_step(step: Words) -> str:
    """A step in the words of an answer."""
    if step[0] == "write":
        return f"write -{step[1]} -{step[2]}"
    return " ".join(map(str, step))


class Search:
    """The search, to which machines answer."""

    def __init__(self, program: str) -> None:
        self.child = subprocess.Popen(
            [program, "teams"],
            stdin=subprocess.PIPE,
            stdout=subprocess.PIPE,
            text=True,
            bufsize=1,
        )

    def say(self, line: str) -> None:
        assert self.child.stdin is not None
        self.child.stdin.write(line + "\n")
        self.child.stdin.flush()

    def outcomes(self, game: Game) -> List[str]:
        """What it finds of a game, in words."""
        memories: List[Memory] = []
        numbers: Dict[Memory, int] = {}
        self.say(head_of(game.match))
        assert self.child.stdout is not None
        for line in self.child.stdout:
            kind, *words = line.rstrip("\n").split(" ")
            if kind == "found":
                return words
            memory = (
                game.machines.start(int(words[0]))
                if kind == "begin"
                else game.machines.after(memories[int(words[0])], seen_in(words[1:]))
            )
            if memory not in numbers:
                numbers[memory] = len(memories)
                memories.append(memory)
            self.say(f"{numbers[memory]} {spell_step(game.machines.does(memory))}")
        raise EOFError("the search has ended")

    def stop(self) -> None:
        self.child.kill()
        self.child.communicate()


class GameState(NamedTuple):
    """How a game stands after a schedule, and how many moves it has."""

    state: object
    moves: int


def parse_schedule(text: str) -> List[int]:
    return [int(word) for word in text.split(",") if word]


def play(game: Game, schedule: List[int]) -> GameState:
    state = game.opening()
    moves = 0
    for agent in schedule:
        if game.next_words(state.agents[agent]) is not None:
            state, is_move = game.turn(state, agent)
            moves += is_move
    return GameState(state, moves)


def is_failing_so(game: Game, values: List[str]) -> bool:
    """Returns whether an agent fails as is said under a schedule that the search
    names."""
    _, agent, failure, schedule = values[:4]
    state, _ = play(game, parse_schedule(schedule))
    number = int(agent)
    if failure in ("program", "outside"):
        return game.failure(state, number) == failure
    is_at_rest = not game.movers(state)
    is_stuck = game.next_words(state.agents[number]) is None
    is_late = is_stuck if failure == "close" else is_at_rest
    return is_late and game.late_failure(state, number) == failure


def is_unsolved_so(game: Game, values: List[str]) -> bool:
    """Returns whether a schedule comes to rest with the verdict that is said."""
    _, outcome, moves, lost, schedule = values[:5]
    state, made = play(game, parse_schedule(schedule))
    verdict = game.outcome(state), made, game.lost(state)
    return not game.movers(state) and verdict == (outcome, int(moves), int(lost))


def is_endless_so(game: Game, values: List[str]) -> bool:
    """Returns whether a cycle leads back to where it began, and is fair as is said."""
    _, is_fair, schedule, cycle = values[:4]
    state, _ = play(game, parse_schedule(schedule))
    start = again(state)
    always = {*range(game.match.agents)}
    for agent in parse_schedule(cycle):
        movers = game.movers(state)
        if agent not in movers:
            return False
        always &= {*movers}
        state, _ = game.turn(state, agent)
    is_right = (always <= {*parse_schedule(cycle)}) == (is_fair == "true")
    return again(state) == start and is_right


COUNTEREXAMPLES = {
    "breaks": is_failing_so,
    "fails": is_unsolved_so,
    "endless": is_endless_so,
}


def agrees(game: Game, values: List[str]) -> bool:
    """Returns whether a result of the search holds."""
    kind = values[0]
    if kind in COUNTEREXAMPLES:
        return COUNTEREXAMPLES[kind](game, values)
    if kind not in ("exceeds", "solves"):
        return False
    all = All(Game(game.match._replace(quota=WITHOUT_END), game.machines))
    if kind == "exceeds":
        maximum = max(all.whole.commands)
        return "endless" in all.failures or maximum > game.match.quota
    moves, lost, turns, commands = values[1:5]
    usage = all.whole
    return not all.failures and (
        (str(usage.moves), str(usage.lost), str(usage.turns)) == (moves, lost, turns)
        and ",".join(map(str, usage.commands)) == commands
    )


def compare(search: Search, seed: int) -> Tuple[str, List[str]]:
    """Compares the search with this engine on the team of a seed; returns the result,
    and a line for each difference."""
    rng = random.Random(seed)
    match = drawn_match(rng)
    game = Game(match, DrawnMachines(seed, match, rng))
    result = search.outcomes(game)
    try:
        is_so = agrees(game, result)
    except TooManyStatesError:
        return "left out", []
    return result[0], [] if is_so else [f"FAILED seed {seed}: {' '.join(result)}"]


def main(arguments: List[str]) -> int:
    parser = argparse.ArgumentParser(
        "python3 -m tests.port.teams",
        description=__doc__,
        formatter_class=argparse.RawDescriptionHelpFormatter,
    )
    parser.add_argument("--teams", metavar="N", type=int, default=TEAMS)
    parser.add_argument("--seed", metavar="S", type=int, default=0, help="the first")
    words = parser.parse_args(arguments)
    search = Search(str(searching.program()))
    kinds: Counter[str] = collections.Counter()
    failure_count = 0
    try:
        for seed in range(words.seed, words.seed + words.teams):
            kind, lines = compare(search, seed)
            kinds[kind] += 1
            failure_count += len(lines)
            print(*lines, sep="\n", end="\n" * len(lines), flush=True)
    finally:
        search.stop()
    print(", ".join(f"{count} {kind}" for kind, count in sorted(kinds.items())))
    return report_counts(words.teams - failure_count, failure_count)


if __name__ == "__main__":
    sys.exit(main(sys.argv[1:]))
