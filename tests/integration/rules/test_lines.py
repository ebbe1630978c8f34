"""The proved program and the Python model play the same matches, and every byte agrees:
lines of connections, deliveries, ends and closes in any order, agents that do anything
under a schedule, and replays, whole or bent."""
import pathlib
import random
import subprocess
import tempfile
from typing import Any, List, Tuple
from unittest import mock

from hypothesis import Phase, settings, strategies
from hypothesis.stateful import (
    RuleBasedStateMachine,
    initialize,
    rule,
    run_state_machine_as_test,
)

from arena_lab.play import schedulers
from arena_lab.play.agent_files import Script, Sleep
from arena_lab.play.matches import play
from arena_lab.play.players import Team
from arena_lab.rules import model, networks
from arena_lab.rules.engines import (
    EnginesDifferError,
    EngineRefusedError,
    Program,
    program_verdict,
)
from arena_lab.rules.fixtures import Fixture
from arena_lab.rules.model import OVER, Match, Setup, Verdict, judge, spell
from tests.hostile.bends import REPLAY_BENDS, Bend
from tests.hostile.drawn_inputs import drawn_replay
from tests.support.drawing import by_chance, drawing
from tests.support.matches import program
from tests.support.output import InTemporary

TEXTS = ["", "a", "bb\u20ac", "1234567", '\\ "\u0001']
GARBAGE = [
    b"",
    b" \t",
    b"jump",
    b"{",
    b"[]",
    b'{"do":"depart","port":1.0}',
    b'{"do":"look","x":NaN}',
    b"\xff\xfe",
    b'{"do":"look"}' + b" " * 65_536,
    b" " * 65_537,
    b'{"do":"enter","key":7}',
    b'{"do":"look","x":"\\ud800"}',
]
AGENTS = 8
QUOTA = 30
BOARD = 6
# the most that an agent says
MAX_LINES = 40
CONNECTIONS = strategies.integers(0, 5)
# how many agents have entered when lines begin
ENTERED = 3
PORTS = strategies.integers(0, 3)
BOARDS = strategies.sampled_from(TEXTS)
# the program's status for a valid replay; for a rejected text, and for a rejected match
TAKEN = 0
REFUSED = (3, 4)


# what an agent says next, once it has entered; for None it sleeps first
Said = strategies.none() | strategies.one_of(
    strategies.builds(lambda port: {"do": "depart", "port": port}, PORTS),
    strategies.builds(lambda port: {"do": "depart", "port": port}, PORTS),
    strategies.builds(
        lambda expect, text: {"do": "write", "expect": expect, "put": text},
        BOARDS,
        BOARDS,
    ),
    strategies.builds(
        lambda port: {"do": "accuse", "port": port} if port else {"do": "look"},
        strategies.sampled_from([0] * 20 + [1, 2, 3]),
    ),
    strategies.just({"do": "bad"}),
)


def drawn_fixture(rng: random.Random) -> Fixture:
    """A match by chance, with keys and perhaps a held link."""
    network = networks.draw_network(rng)
    home, *rest = rng.sample(range(network.nodes), network.nodes)
    holes = rest[: rng.randint(0, min(3, len(rest)))]
    ends = [(v, p) if rng.random() < 0.5 else (w, q) for v, p, w, q in network.links]
    agents = rng.randint(1, AGENTS)
    setup = Setup(
        network.nodes,
        network.links,
        home,
        holes,
        agents,
        rng.randint(1, QUOTA),
        rng.randint(0, BOARD),
        rng.sample(ends, rng.randint(0, 2)),
    )
    keys = [f"key {agent} \u20ac" for agent in range(agents)]
    return Fixture("lab", setup, keys, rng.sample(ends, rng.choice((0, 0, 1))))


def compare_verdicts(replay: bytes) -> None:
    """Compares the program's verdict on a replay with the model's."""
    with tempfile.NamedTemporaryFile(suffix=".jsonl") as file:
        file.write(replay)
        file.flush()
        verdict = program_verdict(program(), pathlib.Path(file.name))
        expectation = judge(model.replay_match(replay.decode()))
    if verdict != expectation:
        raise EnginesDifferError(
            f"the program's verdict is {verdict}, the Python model's {expectation}"
        )


def script_of(steps: List[Any]) -> Script:
    """An agent that enters, does these steps and closes its connection."""

    def wander(lines: Any, key: str, sleep: Sleep) -> None:
        for step in ({"do": "enter", "key": key}, *steps):
            if step is None:
                sleep(1)
                continue
            lines.send(spell(step))
            while (heard := lines.receive()) == spell({"ok": "gone"}):
                pass
            if heard == spell(OVER):
                return

    return wander


def steps_of_agents() -> "strategies.SearchStrategy[List[List[Any]]]":
    """What each agent does; many agents are drawn with many steps."""
    steps = strategies.integers(0, MAX_LINES).flatmap(
        lambda count: strategies.lists(Said, min_size=count, max_size=count)
    )
    return strategies.lists(steps, min_size=AGENTS, max_size=AGENTS)


def schedulers_of_all() -> "strategies.SearchStrategy[Any]":
    """Returns a strategy of named schedulers."""
    names = strategies.sampled_from(sorted(schedulers.SCHEDULER_MAKERS))
    return strategies.builds(
        lambda name, seed: schedulers.SCHEDULER_MAKERS[name](seed),
        names,
        strategies.integers(0, 2**32),
    )


class Lines(RuleBasedStateMachine):
    """A rehearsal on both engines; Program compares them line by line."""

    @initialize(rng=strategies.randoms(use_true_random=False))
    def begins(self, rng: random.Random) -> None:
        self.fixture = drawn_fixture(rng)
        self.engine = Program(self.fixture, program())
        for number, key in enumerate(self.fixture.keys[:ENTERED]):
            self.says(number, {"do": "enter", "key": key})

    def says(self, number: int, text: Any) -> None:
        self.engine.feed(number, spell(text).encode())

    @rule(number=CONNECTIONS, key=strategies.integers(0, 8))
    def enters(self, number: int, key: int) -> None:
        keys = [*self.fixture.keys, "stranger"]
        self.says(number, {"do": "enter", "key": keys[key % len(keys)]})

    @rule(number=CONNECTIONS, port=PORTS)
    def departs(self, number: int, port: int) -> None:
        self.says(number, {"do": "depart", "port": port})

    @rule(number=CONNECTIONS, expect=BOARDS, text=BOARDS)
    def writes(self, number: int, expect: str, text: str) -> None:
        self.says(number, {"do": "write", "expect": expect, "put": text})

    @rule(number=CONNECTIONS, do=strategies.sampled_from(["look", "leave", "bad"]))
    def looks_or_leaves(self, number: int, do: str) -> None:
        self.says(number, {"do": do})

    @rule(number=CONNECTIONS, port=PORTS)
    def accuses(self, number: int, port: int) -> None:
        self.says(number, {"do": "accuse", "port": port})

    @rule(number=CONNECTIONS, line=strategies.sampled_from(GARBAGE))
    def says_no_command(self, number: int, line: bytes) -> None:
        self.engine.feed(number, line)

    @rule(word=strategies.integers(0, 2**32 - 1))
    def delivers(self, word: int) -> None:
        self.engine.draw(word)

    @rule(number=CONNECTIONS)
    def ends(self, number: int) -> None:
        self.engine.end(number)

    def teardown(self) -> None:
        if hasattr(self, "engine"):
            try:
                self.engine.close()
                self.says(0, {"do": "look"})
                compare_verdicts(self.engine.replay())
            finally:
                self.engine.stop()


def bends() -> "strategies.SearchStrategy[List[Bend]]":
    """One to three places in which a replay is bent."""
    first = strategies.sampled_from(REPLAY_BENDS)
    return strategies.lists(first, min_size=1, max_size=3)


class Engines(InTemporary):
    def test_both_answer_the_same_to_lines_in_any_order(self) -> None:
        run_state_machine_as_test(Lines, settings=drawing(30))

    @by_chance(30, steps=steps_of_agents, scheduler=schedulers_of_all)
    def test_both_play_the_same_agents_under_a_schedule(
        self, rng: random.Random, steps: List[Any], scheduler: Any
    ) -> None:
        fixture = drawn_fixture(rng)
        scripts = {number: script_of(step) for number, step in enumerate(steps)}
        team = Team(fixture.keys, dict(list(scripts.items())[: len(fixture.keys)]))
        engine = Program(fixture, program())
        compare_verdicts(play(engine, team, scheduler, fixture).replay)

    def is_found_out(self) -> bool:
        """Returns whether lines in any order show that the engines differ."""
        once = settings(
            drawing(60), phases=[Phase.generate], report_multiple_bugs=False
        )
        try:
            run_state_machine_as_test(Lines, settings=once)
        except (EnginesDifferError, EngineRefusedError, KeyError):
            return True
        return False

    def test_a_model_that_is_wrong_is_found_out(self) -> None:
        wrongs = {
            "a write is longer than a whiteboard": mock.patch.object(
                Match, "_write", lambda self, node, expect, text: {"ok": "written"}
            ),
            "a quota has no end": mock.patch.object(
                Match, "_refusal", lambda self, agent, do: None
            ),
            "nothing is last": mock.patch("arena_lab.rules.rehearsal.LAST", ()),
            "keys are used twice": mock.patch(
                "arena_lab.rules.rehearsal.denial", lambda command, keys, duration: None
            ),
        }
        for title, wrong in wrongs.items():
            with self.subTest(title), wrong:
                self.assertTrue(self.is_found_out())

    def test_a_refusal_is_told(self) -> None:
        path = self.folder / "program"
        path.write_text('#!/bin/sh\necho "cup.toml: wrong" >&2\nexit 3\n')
        path.chmod(0o755)
        engine = Program(drawn_fixture(random.Random(0)), str(path))
        self.addCleanup(engine.stop)
        with self.assertRaisesRegex(EngineRefusedError, "cup.toml: wrong"):
            engine.close()

    def test_moves_are_compared_too(self) -> None:
        match = Match(Setup(3, networks.ring(3).links, 0, [2], 2, 10, 8))
        match.close()
        with mock.patch(
            f"{__name__}.program_verdict", return_value=Verdict("silent", 9, 9)
        ):
            with self.assertRaises(EnginesDifferError):
                compare_verdicts(match.replay().encode())

    def judge(self, text: bytes) -> Tuple[int, str]:
        """Returns the status and the output of the program for a text."""
        with tempfile.NamedTemporaryFile(suffix=".jsonl", dir=self.folder) as file:
            pathlib.Path(file.name).write_bytes(text)
            words = [program(), "judge", file.name]
            result = subprocess.run(words, capture_output=True)
        return result.returncode, result.stdout.decode().strip()

    @by_chance(60, bent=bends)
    def test_a_bent_replay_is_refused_or_is_one_that_the_model_plays(
        self, rng: random.Random, bent: List[Bend]
    ) -> None:
        text = drawn_replay(rng)
        for bend in bent:
            text = bend(text, rng)
        status, output = self.judge(text)
        self.assertIn(status, (TAKEN, *REFUSED))
        if status == TAKEN:
            match = model.replay_match(text.decode())
            self.assertEqual(match.replay().encode(), text)
            self.assertEqual(output, str(judge(match)))
