"""Agents that are written as steps: they play as other agents do, inside the lab and
outside, and `explore` tells them apart by their memories."""
import random
from typing import Any, Dict, Tuple

from arena_lab import api as lab
from arena_lab.play import schedulers
from arena_lab.play.teams import OUTSIDE, AgentWords
from tests.integration.search.exploring import InExplore
from tests.support.drawing import by_chance
from tests.support.matches import (
    AGENTS,
    RING,
    RING_STEP,
    play_fixture,
    program,
    ring_fixture,
)

SOLVED = "every schedule that the lab tried solves, by memories of Python steps"
# steps on the ring of 3, whose black hole is node 1
STEPS = """
def knows(memory, reply):
    # to the other node, and back to accuse
    if memory is None:
        return "on its way", {"do": "depart", "port": 1}
    return memory, {"do": "accuse", "port": 1 - reply["from"]}


def writes(memory, reply):
    if memory is None:
        return 0, {"do": "write", "expect": reply["board"], "put": "x"}
    return 0, {"do": "leave"}


def waits(memory, reply):
    # until the other agent has written
    if reply["ok"] == "woke":
        return memory, {"do": "look"}
    if reply["from"] is not None:
        return memory, {"do": "accuse", "port": 1 - reply["from"]}
    return memory, {"do": "depart", "port": 1} if reply["board"] else {"do": "sleep"}


def raises(memory, reply):
    raise KeyError("west")


def no_command(memory, reply):
    return memory, None


def holds_a_set(memory, reply):
    return {reply["board"]}, {"do": "look"}


def computes(memory, reply):
    while True:
        pass


def counts(memory, reply, most):
    looks = memory or 0
    return looks + 1, {"do": "look"} if looks < most else knows(looks if looks > most else None, reply)[1]


def is_refused(memory, reply):
    if memory is None:
        return 1, {"do": "depart", "port": 9}
    return 1, knows(None if reply == {"no": "port"} else 1, reply)[1]
"""


def walker(
    memory: Any, reply: Dict[str, Any], nodes: int
) -> Tuple[Any, Dict[str, Any]]:
    if memory is None:
        return nodes, {"do": "depart", "port": 1}
    return memory, {"do": "accuse", "port": 1 - reply["from"]}


class Steps(InExplore):
    def setUp(self) -> None:
        super().setUp()
        (self.folder / "steps.py").write_text(STEPS, encoding="utf-8")

    def step(self, name: str) -> str:
        return f"{self.folder}/steps.py:{name}"

    def explore(self, *names: str, hole: int = 1) -> int:
        agents = [word for name in names for word in ("--agent", self.step(name))]
        return self.command(
            "--network", "ring:3", "--hole", hole, "--agents", len(names), *agents
        )

    @by_chance(20)
    def test_the_ring_search_does_command_for_command_what_the_program_does(
        self, rng: random.Random
    ) -> None:
        nodes = rng.randrange(3, 10)
        fixture = ring_fixture(nodes, rng.randrange(1, nodes), rng)
        maker = rng.choice(list(schedulers.SCHEDULER_MAKERS.values()))
        seed = rng.randrange(20)
        first, second = (
            play_fixture(fixture, agent, seed, maker) for agent in (RING_STEP, RING)
        )
        self.assertEqual(first.replay, second.replay)

    def test_it_plays_outside(self) -> None:
        fixture = ring_fixture(5, 2, random.Random(0))
        outside = AgentWords(
            OUTSIDE,
            f"/usr/bin/python3 {AGENTS / 'ring_step.py'} {{host}} {{port}} {{key}} {{nodes}}",
        )
        self.assertEqual(
            play_fixture(fixture, outside, 3).replay,
            play_fixture(fixture, RING_STEP, 3).replay,
        )

    def test_every_schedule_of_rings(self) -> None:
        for nodes, moves, states in ((3, 4, 44), (4, 9, 143), (6, 23, 704)):
            with self.subTest(nodes):
                self.assertEqual(
                    self.command(
                        "--network", f"ring:{nodes}", "--agent", RING_STEP.words
                    ),
                    0,
                    self.output,
                )
                self.assertIn(SOLVED, self.output)
                self.assertIn(
                    f"most moves {moves}, most agents lost 1, most turns ", self.output
                )
                self.assertIn(f"\n{states} states in ", self.output)

    def test_steps_that_solve(self) -> None:
        for names in (
            ["knows"],
            ["knows", "knows"],
            ["is_refused"],
            ["writes", "waits"],
            ["counts 3"],
        ):
            with self.subTest(names):
                self.assertEqual(self.explore(*names), 0, self.output)
                self.assertIn(SOLVED, self.output)

    def test_steps_that_fail(self) -> None:
        for name, why in (
            ("raises", "raises KeyError: 'west' (steps.py, line "),
            ("no_command", "raises TypeError"),
            ("waits", "sleeps, and nothing changes any more"),
            (
                "holds_a_set",
                "raises NotPlainError: its memory holds {''}, of type set: hold None,",
            ),
        ):
            with self.subTest(name):
                self.assertEqual(self.explore(name), 1, self.output)
                self.assertIn(f"agent 0: {why}", self.output)

    def test_a_step_that_computes_without_end(self) -> None:
        words = [
            "--network",
            "ring:3",
            "--hole",
            1,
            "--agents",
            1,
            "--agent",
            self.step("computes"),
            "--timeout",
            0.2,
        ]
        self.assertEqual(self.command(*words), 1, self.output)
        self.assertIn("agent 0: has computed for 0.2 s", self.output)

    def test_beside_a_program(self) -> None:
        status = self.command(
            "--network",
            "ring:4",
            "--agent",
            RING_STEP.words,
            "--agent",
            RING.words,
            "--check",
            5,
        )
        self.assertEqual(status, 0, self.output)
        self.assertIn(
            "by memories of Python steps and histories of Python programs", self.output
        )

    def test_by_workers_and_drawn(self) -> None:
        words = ["--agent", RING_STEP.words, "--network"]
        self.assertEqual(self.command(*words, "ring:4", "--workers", 2), 0, self.output)
        self.assertIn("\n143 states in ", self.output)
        status = self.command(
            *words, "ring:6", "--hole", 3, "--draws", 50, "--check", 2
        )
        self.assertEqual(status, 0, self.output)
        self.assertIn("50 drawn schedules", self.output)

    def test_who_has_too_many_states_hears_of_steps(self) -> None:
        for words, is_told in ((RING.words, True), (RING_STEP.words, False)):
            self.assertEqual(
                self.command(
                    "--network", "ring:5", "--max-states", 20, "--agent", words
                ),
                130,
            )
            self.assertEqual(
                "an agent that is written as a step has fewer states" in self.output,
                is_told,
            )

    def test_a_function_of_this_process(self) -> None:
        result = lab.explore("ring:3", walker, holes=[1], engine=program())
        self.assertTrue(result.solves, result)
        self.assertTrue(
            lab.explore("ring:4", walker, holes=[1], engine=program()).fails
        )
        self.assertEqual(lab.play("ring:3", walker, holes=[1])[0]["outcome"], "solved")
