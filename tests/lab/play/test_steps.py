"""Agents that are written as steps: their memories are plain values, by which they are
named, and nothing else."""
import math
import unittest
from typing import Any

from arena_lab.play.agent_files import AgentError, function_of
from arena_lab.play.step_agents import (
    NotPlainError,
    check,
    fresh,
    is_step,
    memory_of,
    name_of,
)

PLAIN = [
    None,
    True,
    False,
    0,
    1,
    -1,
    10**40,
    0.0,
    -0.0,
    1.5,
    math.inf,
    "",
    "\u20ac",
    "a\x00\ud800",
    (),
    [],
    {},
    (1,),
    [1],
    [1.0],
    {"a": 1, "b": 2},
    {"b": 2, "a": 1},
    (1, [True, {"x": (None, "y")}]),
    ("1",),
    1.0,
]
OTHERS = [
    b"x",
    {1},
    frozenset((1,)),
    object(),
    len,
    lambda: None,
    bytearray(b"x"),
    1j,
    type("T", (tuple,), {})((1,)),
    type("I", (int,), {})(1),
    type("S", (str,), {})("x"),
    range(3),
    ...,
    [(1, {"a": {2}})],
]


class Memories(unittest.TestCase):
    def test_plain_values_are_made_again_of_their_names(self) -> None:
        for value in PLAIN:
            with self.subTest(value):
                memory = memory_of(name_of(value))
                self.assertEqual(
                    (repr(memory), type(memory)), (repr(value), type(value))
                )

    def test_different_values_have_different_names(self) -> None:
        names = [name_of(value) for value in PLAIN]
        self.assertEqual(len(set(names)), len(set(map(repr, PLAIN))))

    def test_equal_values_have_one_name_whatever_they_share(self) -> None:
        text = "".join(["le", "ft"])
        for first, second in (
            ((text, text), (text, "".join(["le", "ft"]))),
            (["left"], [text]),
        ):
            self.assertEqual(name_of(first), name_of(second))

    def test_other_values_are_refused(self) -> None:
        for value in OTHERS:
            with self.subTest(repr(value)), self.assertRaises(NotPlainError):
                check(value)
        with self.assertRaisesRegex(
            NotPlainError,
            r"^its memory holds \{1\}, of type set: hold None, True, False, numbers",
        ):
            name_of((0, {1}))

    def test_a_step_keeps_nothing_in_what_it_gives(self) -> None:
        record: Any = []

        def step(memory: Any, _reply: Any) -> Any:
            record.append(memory)
            return record if memory is None else memory, {"do": "look"}

        first, _ = fresh(step)(None, {})
        self.assertEqual(first, [None])
        record.append(7)
        self.assertEqual(fresh(step)(first, {})[0], [None])


class Files(unittest.TestCase):
    def test_a_file_without_a_search_has_a_step(self) -> None:
        self.assertTrue(is_step(function_of("examples/agents/ring_step.py {nodes}")))
        self.assertFalse(is_step(function_of("examples/agents/ring.py {nodes}")))
        with self.assertRaisesRegex(AgentError, "it has no function search or step$"):
            function_of("examples/agents/client.py")
