"""What is told of a match that was not solved: one fact a sentence, with nodes and
ports as the referee sees them."""
import unittest
from typing import List, Sequence

from arena_lab import api
from arena_lab.play.matches import STUCK
from arena_lab.play.referee import report
from arena_lab.rules import networks
from arena_lab.rules.model import Match, Setup
from tests.support.needing import needs

# an event in words: agent, action, port
Happens = Sequence[str]


class Told(unittest.TestCase):
    def report(
        self, happens: Happens, faults: Sequence[str] = (), holes: Sequence[int] = (3,)
    ) -> List[str]:
        match = Match(Setup(5, networks.ring(5).links, 0, list(holes), 2, 100, 40))
        for happen in happens:
            agent, do, *port = happen.split()
            if do == "arrive":
                match.deliver(int(agent))
            else:
                match.reply_to(
                    int(agent), {"do": do, **({"port": int(port[0])} if port else {})}
                )
        match.close()
        return report(match, faults)

    def test_both_went_over_one_link(self) -> None:
        variant = [
            f"{agent} {it}"
            for agent in (0, 1)
            for it in (
                "enter",
                "depart 0",
                "arrive",
                "depart 0",
                "arrive",
                "depart 0",
                "arrive",
            )
        ]
        self.assertEqual(
            self.report(variant),
            [
                "nobody accused",
                "agents 0 and 1 both went over the link from node 2 to node 3, the black hole",
            ],
        )
        self.assertEqual(
            self.report(variant[:7])[1:],
            [
                "agent 0 went over the link from node 2 to node 3, the black hole",
                "agent 1 never entered",
            ],
        )

    def test_an_accusation_of_what_is_safe(self) -> None:
        self.assertEqual(
            self.report(["0 enter", "1 enter", "0 accuse 0", "1 leave"]),
            ["agent 0 accused port 0 of node 0, which leads to node 1, which is safe"],
        )

    def test_who_left_and_who_waited(self) -> None:
        variant = ["0 enter", "1 enter", "0 leave", "1 depart 0"]
        self.assertEqual(
            self.report([*variant, "1 arrive"], [f"agent 1: {STUCK}"]),
            [
                "nobody accused: agent 0 left",
                "agent 1 still stood at node 1 and waited for a whiteboard that nobody changed",
            ],
        )
        self.assertEqual(
            self.report(variant),
            [
                "nobody accused: agent 0 left",
                "agent 1 was still on the link from node 0 to node 1",
            ],
        )

    def test_what_a_right_accusation_leaves_open(self) -> None:
        variant = [
            "0 enter",
            "1 enter",
            "0 depart 0",
            "0 arrive",
            "0 depart 0",
            "0 arrive",
            "0 accuse 0",
            "1 leave",
        ]
        self.assertEqual(
            self.report(variant),
            ["nobody visited node 4, so that might as well be the black hole"],
        )
        self.assertEqual(
            self.report(variant, holes=(3, 4)),
            ["nobody accused a link into the black hole at node 4"],
        )

    def test_nothing_is_told_of_a_match_that_is_solved(self) -> None:
        variant = [
            "0 enter",
            "1 enter",
            "0 depart 0",
            "0 arrive",
            "0 depart 0",
            "0 arrive",
            "1 depart 1",
            "1 arrive",
            "0 accuse 0",
            "1 leave",
        ]
        self.assertEqual(self.report(variant), [])


class Places(unittest.TestCase):
    @needs("greenlet", "tqdm")
    def test_an_exception_has_the_line_of_the_agent(self) -> None:
        def search(agent: object, key: str) -> None:
            raise KeyError("west")

        row = api.play("ring:3", search, "fair", seeds=1)[0]
        self.assertRegex(
            row["faults"][0],
            r"^agent 0: raises KeyError: 'west' \(test_referee.py, line \d+\)$",
        )
