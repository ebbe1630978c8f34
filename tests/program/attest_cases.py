"""Cases of `arena attest`: drawn modules by node's own WebAssembly, a client of another
language, wake-ups in a row, and files that are refused."""
import hashlib
import random
from typing import List, Sequence

from arena_lab.rules.model import Match, Setup
from tests.program.module_cases import RING
from tests.program.module_replays import (
    IMPORTS,
    DrawnMatch,
    ModulePlayer,
    Stepper,
    call,
    drawn_agent,
    expected_lines,
    node_stepper,
)
from tests.program.program_cases import ABSENT, REFUSED_MATCH, case
from tests.support.counts import require
from tests.support.matches import flipped_ring
from tests.support.program_rows import DONE, REFUSED_TEXT, Stage, expect
from tests.support.servers import Run
from tests.support.wasm_encoding import Function, module

DIFFERS = 1
REPLAYS = 300
QUOTAS = (3, 8, 200)
# an agent that sleeps four times before it leaves
SLEEPY = call("enter") + 4 * call("sleep") + call("leave")


def ring_setup(
    nodes: int, rng: random.Random, agents: int = 2, quota: int = 200
) -> Setup:
    network = flipped_ring(nodes, rng)
    return Setup(nodes, network.links, 0, [nodes - 1], agents, quota, 48)


def attest(
    stage: Stage, match: Match, players: Sequence[ModulePlayer], *words: str
) -> Run:
    """Runs `arena attest` on a match. Equal players are one module."""
    (stage.folder / "match.jsonl").write_text(match.replay(), encoding="utf-8")
    modules: List[str] = []
    for player in players if len(set(players)) > 1 else players[:1]:
        modules += ["--module", player.word]
    return stage.run(["attest", "match.jsonl", *modules, *words])


def require_expected(
    stage: Stage,
    stepper: Stepper,
    match: Match,
    players: Sequence[ModulePlayer],
    limit: int,
) -> bool:
    """Requires that the program says what node's WebAssembly does, and returns whether
    the replay is attested."""
    lines = expected_lines(stepper, match, players, limit)
    is_attested = '"attested":true' in lines
    expect(
        attest(stage, match, players, "--spurious-wakeups", str(limit)),
        lines.encode(),
        b"",
        DONE if is_attested else DIFFERS,
    )
    return is_attested


def drawn_players(
    stage: Stage, agents: int, nodes: int, rng: random.Random
) -> List[ModulePlayer]:
    """Players by chance: of one module or of several, or of the sample."""
    if rng.random() < 0.3:
        return [ModulePlayer(RING, (nodes,))] * agents
    players = []
    for number in range(rng.choice((1, agents))):
        file = stage.folder / f"agent{number}.wasm"
        file.write_bytes(drawn_agent(rng))
        players.append(ModulePlayer(file, (number, 7)))
    return players * (agents if len(players) == 1 else 1)


@case("attest says of drawn replays what node's WebAssembly says")
def attest_drawn_replays(stage: Stage) -> None:
    results = set()
    with node_stepper() as stepper:
        for number in range(REPLAYS):
            rng = random.Random(f"replay {number}")
            nodes = rng.choice((3, 4, 5))
            agents = rng.choice((1, 2, 3))
            setup = ring_setup(nodes, rng, agents, rng.choice(QUOTAS))
            # a file of this name held another module before
            stepper.forget()
            players = drawn_players(stage, agents, nodes, rng)
            game = DrawnMatch(Match(setup), players, stepper)
            is_bent = rng.random() < 0.4
            game.play(rng, is_bent)
            limit = rng.choice((0, 1, 2, 100))
            is_attested = require_expected(stage, stepper, game.match, players, limit)
            require(
                is_attested or is_bent or limit < 100,
                f"{number}: modules that played their match differ from it",
            )
            results.add((is_attested, is_bent))
    require(len(results) == 4, f"the replays are too much alike: {results}")


def play_ring(stepper: Stepper, number: int) -> DrawnMatch:
    """A match of two agents of the sample module on a ring of four nodes."""
    rng = random.Random(f"ring {number}")
    players = [ModulePlayer(RING, (4,))] * 2
    game = DrawnMatch(Match(ring_setup(4, rng)), players, stepper)
    for _ in range(200):
        game.turn(rng.randrange(2), rng, 0)
    return game


@case(
    "a client that says what a module says is attested, and not if it looks once more"
)
def attest_imitation(stage: Stage) -> None:
    digest = hashlib.sha256(RING.read_bytes()).hexdigest()
    with node_stepper() as stepper:
        game = play_ring(stepper, 1)
        game.match.close()
        result = attest(stage, game.match, game.players)
        line = '{"module":"%s","arguments":[4],"agent":%d,"wake_ups":0,"in_a_row":0}\n'
        lines = line % (digest, 0) + line % (digest, 1)
        expect(
            result,
            (lines + '{"attested":true,"agents":2,"spurious_wakeups":2}\n').encode(),
            b"",
            DONE,
        )
        looking = DrawnMatch(
            Match(game.match.setup), [ModulePlayer(RING, (4,))] * 2, stepper
        )
        looking.match.reply_to(0, {"do": "enter"})
        looking.match.reply_to(0, {"do": "look"})
        looking.match.close()
        result = attest(stage, looking.match, looking.players)
        says = (
            '"says":{"agent":0,"do":"write","expect":"","put":"right going, left new"'
        )
        lines = '{"module":"%s","arguments":[4],"agent":0,"event":1,"step":"says",%s,"reply":null}}\n'
        expect(
            result,
            (
                lines % (digest, says)
                + '{"attested":false,"agents":2,"spurious_wakeups":2}\n'
            ).encode(),
            b"",
            DIFFERS,
        )


def sleepy_match() -> Match:
    """A match whose one agent enters and leaves."""
    match = Match(ring_setup(3, random.Random(0), agents=1))
    match.reply_to(0, {"do": "enter"})
    match.reply_to(0, {"do": "leave"})
    match.close()
    return match


@case("an agent wakes once more in a row than --spurious-wakeups says, and not twice")
def attest_wakeups(stage: Stage) -> None:
    file = stage.folder / "sleepy.wasm"
    file.write_bytes(module([Function([], [], SLEEPY, "run")], IMPORTS))
    front = '{"module":"%s","arguments":[],"agent":0,' % (
        hashlib.sha256(file.read_bytes()).hexdigest()
    )
    for limit, end, last, status in (
        (2, '"event":1,"step":"sleeps"}', "false", DIFFERS),
        (3, '"wake_ups":4,"in_a_row":4}', "true", DONE),
    ):
        summary = '{"attested":%s,"agents":1,"spurious_wakeups":%d}\n' % (last, limit)
        expect(
            attest(
                stage,
                sleepy_match(),
                [ModulePlayer(file, ())],
                f"--spurious-wakeups={limit}",
            ),
            f"{front}{end}\n{summary}".encode(),
            b"",
            status,
        )


@case("attest refuses a number of modules, a file that is no module, and a bent replay")
def attest_refusals(stage: Stage) -> None:
    match = sleepy_match()
    ring = ["--module", f"{RING}:3"]
    text = match.replay()
    lines = text.splitlines(keepends=True)
    (stage.folder / "match.jsonl").write_text(text)
    (stage.folder / "cut.jsonl").write_text("".join(lines[:-1]))
    (stage.folder / "bent.jsonl").write_text(text.replace('"ports":2', '"ports":3'))
    (stage.folder / "text.wasm").write_text("no module")
    for words, fault, status in (
        (
            ["match.jsonl", *ring, *ring],
            b"match.jsonl: 2 modules, 1 agents\n  give --module once for all agents, or 1 times, once for each\n",
            REFUSED_TEXT,
        ),
        (
            ["match.jsonl", "--module", "text.wasm"],
            b"text.wasm: head at byte 0\n",
            REFUSED_TEXT,
        ),
        (["match.jsonl", "--module", "none.wasm"], b"none.wasm: read\n" + ABSENT, 6),
        (["none.jsonl", *ring], b"none.jsonl: read\n" + ABSENT, 6),
        (["bent.jsonl", *ring], b"bent.jsonl: differs 2\n", REFUSED_MATCH),
    ):
        expect(stage.run(["attest", *words]), b"", fault, status)
    require(
        stage.run(["attest", "cut.jsonl", *ring]).status == REFUSED_TEXT,
        "a replay without its end is compared",
    )
