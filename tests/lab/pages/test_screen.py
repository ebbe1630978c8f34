"""What a screen shows of a contest tells no agent more than it has met."""
import random
import unittest
from typing import Any, Dict, List

from arena_lab.pages.screen import (
    NOT_BEGUN,
    OVER,
    RUNS,
    WAITS,
    WatchedMatch,
    match_row,
    standings,
    teams,
)
from arena_lab.rules.model import Match, Setup
from arena_lab.rules.networks import ring
from tests.support.matches import flipped_ring

Event = Dict[str, Any]


def drawn_events(rng: random.Random, match: Match) -> List[Event]:
    """Plays events by chance; gives them."""
    events: List[Event] = []
    for _ in range(60):
        agent = rng.randrange(match.setup.agents)
        do = rng.choice(
            [
                "enter",
                "look",
                "depart",
                "depart",
                "deliver",
                "deliver",
                "accuse",
                "leave",
            ]
        )
        event = {
            "do": do,
            "agent": agent,
            **({"port": rng.randrange(2)} if do in ("depart", "accuse") else {}),
        }
        events.append(event)
        match.play(event)
    return events


def lost_by(setup: Setup, events: List[Event]) -> List[bool]:
    """Returns for each event whether it delivers an agent to its destruction."""
    match = Match(setup)
    results = []
    for event in events:
        agent = match.agents[event["agent"]]
        goes = (
            event["do"] == "deliver"
            and agent.standing == "away"
            and match.destroys(agent.node, agent.port)
        )
        results.append(goes)
        match.play(event)
    return results


class Twins(unittest.TestCase):
    def test_two_matches_that_nobody_can_tell_apart_show_the_same(self) -> None:
        compared_value = 0
        for seed in range(300):
            rng = random.Random(seed)
            network = flipped_ring(6, rng)
            setup = Setup(6, network.links, 0, [3], 3, 1000, 8)
            match = Match(setup)
            events = drawn_events(rng, match)
            free = [
                node for node in range(1, 6) if node != 3 and node not in match.reached
            ]
            if not free:
                continue
            twin_setup = setup._replace(holes=[free[0]])
            here = Match(setup)
            there = Match(twin_setup)
            for event, is_lost in zip(events, lost_by(setup, events)):
                here.play(event)
                if not is_lost:
                    there.play(event)
                first, two = (
                    standings(
                        [WatchedMatch("red", it, 7), WatchedMatch("blue", None, None)]
                    )
                    for it in (here, there)
                )
                self.assertEqual(first, two)
                self.assertEqual(
                    teams(first, ["ring", "ring"]), teams(two, ["ring", "ring"])
                )
                compared_value += 1
        self.assertGreater(compared_value, 5_000)


class Rows(unittest.TestCase):
    def setUp(self) -> None:
        self.match = Match(
            Setup(3, [(0, 0, 1, 0), (1, 1, 2, 0), (2, 1, 0, 1)], 0, [2], 2, 10, 8)
        )

    def test_a_running_match_shows_who_has_entered(self) -> None:
        self.assertEqual(
            match_row(WatchedMatch("red", None, None), False),
            {"team": "red", "state": NOT_BEGUN},
        )
        self.match.reply_to(0, {"do": "enter"})
        self.match.reply_to(0, {"do": "depart", "port": 1})
        self.match.deliver(0)
        self.assertEqual(
            match_row(WatchedMatch("red", self.match, 7), False),
            {"team": "red", "state": RUNS, "entered": 1, "agents": 2, "since": 7},
        )
        self.assertEqual(
            match_row(WatchedMatch("red", self.match, None), False),
            {"team": "red", "state": WAITS, "entered": 1, "agents": 2},
        )

    def test_matches_stand_network_by_network(self) -> None:
        self.match.close()
        rows = standings(
            [
                WatchedMatch("red", None, None, "ring"),
                WatchedMatch("red", self.match, 7, "cube"),
                WatchedMatch("blue", self.match, 7, "ring"),
            ]
        )
        self.assertEqual(
            [(row["network"], row["match"]) for row in rows],
            [("ring", 2), ("ring", 0), ("cube", 1)],
        )

    def test_a_node_is_named_once_all_are_closed(self) -> None:
        self.match.reply_to(0, {"do": "enter"})
        self.match.reply_to(0, {"do": "accuse", "port": 1})
        self.match.close()
        row = {"team": "red", "state": OVER, "moves": 0, "lost": 0, "came": True}
        self.assertEqual(
            match_row(WatchedMatch("red", self.match, 7), False),
            {**row, "outcome": "guess"},
        )
        self.assertEqual(
            match_row(WatchedMatch("red", self.match, 7), True),
            {**row, "outcome": "guess 1"},
        )

    def test_pages_come_when_all_are_closed_and_the_best_stand_first(self) -> None:
        match = Match(self.match.setup)
        for event in ({"do": "enter"}, {"do": "depart", "port": 0}):
            match.reply_to(0, event)
        match.deliver(0)
        match.reply_to(0, {"do": "accuse", "port": 1})
        match.close()
        running = [WatchedMatch("red", self.match, 7), WatchedMatch("blue", match, 7)]
        self.assertEqual(
            [(row["team"], row["page"]) for row in standings(running)],
            [("blue", False), ("red", False)],
        )
        self.match.close()
        self.assertEqual(
            [(row["team"], row["page"]) for row in standings(running)],
            [("blue", True), ("red", True)],
        )


class TwoRows(unittest.TestCase):
    def setUp(self) -> None:
        self.matches = [
            Match(Setup(3, ring(3).links, 0, [2], 2, 10, 8)) for _ in range(2)
        ]

    def test_running_matches_stand_in_their_order(self) -> None:
        """Whatever happens in them: the number of events is nothing that is shown."""
        for busy in range(2):
            for match in self.matches:
                match.reply_to(0, {"do": "enter"})
            for _ in range(5):
                self.matches[busy].reply_to(0, {"do": "look"})
            rows = standings(
                [
                    WatchedMatch(team, match, 7)
                    for team, match in zip("ab", self.matches)
                ]
            )
            self.assertEqual([row["match"] for row in rows], [0, 1])

    def test_who_has_ended_has_entered(self) -> None:
        self.matches[0].reply_to(0, {"do": "enter"})
        self.matches[0].reply_to(0, {"do": "leave"})
        self.assertEqual(
            match_row(WatchedMatch("a", self.matches[0], 7), False)["entered"], 1
        )
