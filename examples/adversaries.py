"""Schedulers for `./arena-lab run --scheduler`: adversaries that one writes oneself.

Each is a function of a seed that gives a function of what may happen next and of how
the match stands.
"""
import random


def writers_wait(seed):
    """Whoever wants to write waits as long as anything else can happen: so whiteboards
    change between a reading and the writing that rests on it."""
    rng = random.Random(seed)

    def choose(choices, state):
        other_choices = [
            choice
            for choice in choices
            if (state.said(choice.agent) or {}).get("do") != "write"
        ]
        return rng.choice(other_choices or choices)

    return choose
