"""Agents that are written as a step, `step(memory, reply, ..) -> (memory, command)`:
see `take_steps` of examples/agents/client.py. Inside the lab a step gets a fresh memory
each time, made of what names it, so it can keep nothing else in there."""
import inspect
import marshal
from typing import Any, Callable, Dict, Tuple

PARAMETERS = ["memory", "reply"]
SIMPLE = (bool, int, float, str)
# the version of `marshal` that has no references: equal values have one text
PLAINEST = 0

Step = Callable[[Any, Dict[str, Any]], Tuple[Any, Dict[str, Any]]]


class NotPlainError(TypeError):
    """A memory that holds something else than plain values."""


def is_step(function: Callable[..., Any]) -> bool:
    """Returns whether a function is a step: its first parameters are `memory` and
    `reply`."""
    return list(inspect.signature(function).parameters)[:2] == PARAMETERS


def name_of(memory: Any) -> bytes:
    """The name of a plain value, from which `memory_of` makes it again."""
    check(memory)
    return marshal.dumps(memory, PLAINEST)


def memory_of(name: bytes) -> Any:
    """A fresh plain value of this name."""
    return marshal.loads(name)


def check(value: Any) -> None:
    """Refuses what is no plain value."""
    kind = type(value)
    if value is None or kind in SIMPLE:
        return
    if kind not in (tuple, list, dict):
        raise NotPlainError(
            f"its memory holds {value!r}, of type {kind.__name__}: hold None, True, False, numbers, texts, "
            "and tuples, lists and dicts of these"
        )
    for item in value.items() if kind is dict else value:
        check(item)


def fresh(step: Step) -> Step:
    """A step that is given, and gives, fresh memories."""

    def take(memory: Any, reply: Dict[str, Any]) -> Tuple[Any, Dict[str, Any]]:
        after, command = step(memory, reply)
        return memory_of(name_of(after)), command

    return take
