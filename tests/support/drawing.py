"""Tests whose inputs Hypothesis draws, and makes small where a test fails.

The gate draws the same inputs each time. `HYPOTHESIS_PROFILE=search` draws others, ten
times as many; what fails then becomes a row of its test (`hypothesis.example`), or a
test of its own.
"""
import os
import unittest
from typing import Any, Callable

try:
    from hypothesis import given, settings
    from hypothesis import strategies
except ModuleNotFoundError:
    HAS_HYPOTHESIS = False
else:
    HAS_HYPOTHESIS = True

# how many times as many inputs are drawn, and whether they are the same each time
PROFILES = {"gate": (1, True), "search": (10, False)}
PROFILE = PROFILES[os.environ.get("HYPOTHESIS_PROFILE", "gate")]
Test = Callable[..., Any]


def drawing(examples: int) -> Any:
    """The settings of a test that draws this many inputs in the gate, and more by
    night."""
    scale, is_same = PROFILE
    return settings(
        max_examples=examples * scale,
        derandomize=is_same,
        deadline=None,
        database=None,
        print_blob=not is_same,
    )


def by_chance(examples: int, **extra: Callable[[], Any]) -> Callable[[Test], Test]:
    """Tries a test on this many inputs: `chance`, a random.Random whose draws Hypothesis
    makes, and a value of each strategy in `more`, by its name. Skips the test where
    Hypothesis is missing."""
    if not HAS_HYPOTHESIS:
        return unittest.skip("Debian's python3-hypothesis is not installed")
    rng = strategies.randoms(use_true_random=False)
    draw = {name: strategy() for name, strategy in extra.items()}
    return lambda test: drawing(examples)(given(rng=rng, **draw)(test))
