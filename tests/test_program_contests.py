"""What the words of a stream say of a replay: deliveries that they make, and such as
wrong bodies make."""
import random
import unittest
from typing import List, Sequence, Set

from arena_lab.rules.model import PRESENT, Match, Place, Setup
from tests.program import program_contests
from tests.program.program_contests import (
    ADAPTIVE,
    OBLIVIOUS,
    SIDES,
    Rule,
    Side,
    made_by,
    draws_of,
)

COMMANDS = {
    "0": {"do": "depart", "port": 0},
    "1": {"do": "depart", "port": 1},
    "a": {"do": "accuse", "port": 0},
    "l": {"do": "leave"},
}


def match_of(side: Side) -> Match:
    links = [(node, 0, (node + 1) % side.nodes, 1) for node in range(side.nodes)]
    return Match(Setup(side.nodes, links, 0, [side.hole], len(side.agents), 20, 8))


def steps_of(match: Match, remaining: List[str], rng: random.Random) -> None:
    """Lets some of the agents that wait for nothing take their next step."""
    for agent, steps in enumerate(remaining):
        if match.agents[agent].standing == PRESENT and steps and rng.random() < 0.7:
            match.reply_to(agent, COMMANDS[steps[0]])
            remaining[agent] = steps[1:]


def turn(match: Match, held_links: Set[Place], word: int, rule: Rule) -> None:
    among = match.pool if rule is ADAPTIVE else range(len(match.agents))
    if among:
        agent = among[word % len(among)]
        if (
            agent in match.pool
            and (match.agents[agent].node, match.agents[agent].port) not in held_links
        ):
            match.deliver(agent)


def replay(
    side: Side,
    words: Sequence[int],
    held_links: Set[Place],
    seed: int,
    idle: int = 7,
    rule: Rule = ADAPTIVE,
) -> str:
    """The replay of a match whose agents come after some turns, with these words."""
    rng = random.Random(seed)
    match = match_of(side)
    agents = list(side.agents)
    for word in words[:idle]:
        turn(match, held_links, word, rule)
    for agent in range(len(agents)):
        match.reply_to(agent, {"do": "enter"})
    steps_of(match, agents, rng)
    for word in words[idle:]:
        turn(match, held_links, word, rule)
        steps_of(match, agents, rng)
    match.close()
    return match.replay()


class Words(unittest.TestCase):
    def test_they_make_the_deliveries_whenever_agents_come(self) -> None:
        for number, side in enumerate(SIDES):
            for seed in range(3):
                text = replay(
                    side, draws_of(number), {side.held}, seed, idle=seed * 100
                )
                self.assertTrue(made_by(ADAPTIVE, text, {side.held}, draws_of(number)))
                self.assertFalse(
                    made_by(ADAPTIVE, text, {side.held}, draws_of(1 - number))
                )
                self.assertFalse(
                    made_by(ADAPTIVE, text, {side.held}, [0] * program_contests.TURNS)
                )

    def test_each_schedule_makes_its_own(self) -> None:
        for number, side in enumerate(SIDES):
            for rule, second in ((ADAPTIVE, OBLIVIOUS), (OBLIVIOUS, ADAPTIVE)):
                text = replay(side, draws_of(number), {side.held}, 1, rule=rule)
                self.assertTrue(made_by(rule, text, {side.held}, draws_of(number)))
                self.assertFalse(made_by(second, text, {side.held}, draws_of(number)))

    def test_wrong_bodies_make_others(self) -> None:
        for number, side in enumerate(SIDES):
            words = draws_of(number)
            for name, usage, held_links in (
                ("one word for all", [0] * len(words), {side.held}),
                ("another stream", draws_of(1 - number), {side.held}),
                ("backwards", words[::-1], {side.held}),
                ("no link is held", words, set()),
                ("the other match's link is held", words, {SIDES[1 - number].held}),
            ):
                with self.subTest(body=name, team=side.team):
                    self.assertFalse(
                        made_by(
                            ADAPTIVE,
                            replay(side, usage, held_links, 1),
                            {side.held},
                            words,
                        )
                    )
