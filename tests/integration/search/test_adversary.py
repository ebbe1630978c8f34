"""The adversary makes right teams move as much as every team must, and shows the black
hole that a wrong team does not find."""
import random
from typing import List, Tuple

from arena_lab.__main__ import main
from arena_lab.play.teams import INSIDE, AgentWords, Game
from arena_lab.rules.networks import Network, complete, ring
from arena_lab.search.ring_adversary import (
    Adversary,
    BeatenError,
    NotARingError,
    Phase,
    steps_of,
)
from arena_lab.search.ring_bounds import least_moves
from tests.support.matches import RING, RING3, InFolder, flipped_ring, two
from tests.support.output import run_call

# source of wrong teams, and the message about each
WRONG = '''
def straight(agent, key, nodes, side):
    """Goes on without coming back, and accuses what is left: right alone, but the other one may do the same."""
    agent.enter(key)
    port = side
    for _ in range(nodes - 2):
        port = 1 - agent.depart(port).came
    agent.accuse(port)


def hasty(agent, key, nodes, side):
    """Accuses the second node that it comes to, of which it knows nothing."""
    agent.enter(key)
    agent.accuse(1 - agent.depart(side).came)


def idle(agent, key, nodes, side):
    """Never departs."""
    agent.enter(key)


def follower(agent, key, nodes, side):
    """Both go the same way."""
    agent.enter(key)
    agent.depart(0)
'''
SAID = {
    "straight": "both agents come to links to node",
    "hasty": "alone does not accuse node",
    "idle": "no agent departs",
    "follower": "alone does not accuse node",
}


TEAMS = {
    "halves": two("halves.py", "{nodes}"),
    "shuttle": two("shuttle.py", "{nodes}"),
    "ring": [RING] * 2,
    "ring3": [RING3] * 2,
}


def game(network: Network, agents: List[AgentWords], home: int = 0) -> Game:
    return Game("a ring", network, agents, home, quota=4000)


class RightTeams(InFolder):
    def test_they_move_as_much_as_every_team_must(self) -> None:
        for name, agents in TEAMS.items():
            for nodes in (3, 4, 5, 6, 8, 11):
                with self.subTest(name, nodes=nodes):
                    self.check(Adversary(game(ring(nodes), agents)))

    def test_whatever_the_labels_and_the_home_base(self) -> None:
        for seed in range(6):
            rng = random.Random(seed)
            nodes = rng.randrange(4, 10)
            with self.subTest(seed=seed):
                self.check(
                    Adversary(
                        game(
                            flipped_ring(nodes, rng),
                            TEAMS["halves"],
                            rng.randrange(nodes),
                        )
                    )
                )

    def check(self, adversary: Adversary) -> None:
        """Each phase makes the moves that the proof counts, and the team solves with
        either of the last two nodes."""
        phases = list(adversary.phases())
        for before, phase in zip(phases, phases[1:]):
            self.assertGreaterEqual(
                phase.arcs.moves - before.arcs.moves, self.due(adversary.nodes, before)
            )
            self.assertEqual(
                phase.arcs.new, before.arcs.new - steps_of(before.arcs.new)
            )
        last = phases[-1].arcs
        self.assertEqual(last.new, 2)
        self.assertGreaterEqual(last.moves, least_moves(adversary.nodes))
        for hole in last.ends():
            match, _ = adversary.at_rest(hole, last.turns)
            self.assertFalse(match.has_failed())
            self.assertGreaterEqual(match.verdict().moves, last.moves)

    @staticmethod
    def due(nodes: int, before: Phase) -> int:
        """The moves that a phase costs: n + v - 3 if it leaves v of 2 v - 1 new nodes,
        or three for each node."""
        steps = steps_of(before.arcs.new)
        remaining = before.arcs.new - steps
        return (
            nodes + remaining - 3 if before.arcs.new == 2 * remaining - 1 else 3 * steps
        )


class WrongTeams(InFolder):
    def wrong(self, name: str, nodes: int) -> Tuple[Adversary, BeatenError]:
        path = self.folder / "wrong.py"
        path.write_text(WRONG, encoding="utf-8")
        agents = [
            AgentWords(INSIDE, f"{path}:{name} {{nodes}} {side}") for side in (0, 1)
        ]
        adversary = Adversary(game(ring(nodes), agents))
        with self.assertRaises(BeatenError) as caught:
            list(adversary.phases())
        return adversary, caught.exception

    def test_each_fails_with_the_black_hole_that_is_named(self) -> None:
        for name, why in SAID.items():
            for nodes in (5, 8):
                with self.subTest(name, nodes=nodes):
                    adversary, fault = self.wrong(name, nodes)
                    self.assertIn(why, fault.why)
                    match, schedule = adversary.at_rest(fault.hole, fault.turns)
                    self.assertTrue(match.has_failed())
                    self.assertEqual(schedule.fixture.setup.holes, [fault.hole])

    def test_both_agents_are_lost_that_go_straight(self) -> None:
        adversary, fault = self.wrong("straight", 8)
        self.assertEqual(
            adversary.at_rest(fault.hole, fault.turns)[0].verdict().lost, 2
        )


class CommandLine(InFolder):
    def play_adversary(self, *words: str) -> Tuple[int, str]:
        status, output, errors = run_call(
            main,
            [
                "adversary",
                *words,
                "--engine",
                "model",
                "--keep",
                str(self.folder / "find"),
            ],
        )
        return status, output + errors

    def test_it_says_what_each_phase_forces_and_keeps_the_schedule(self) -> None:
        status, output = self.play_adversary(
            "--network", "ring:8", "--agent", "examples/agents/ring.py {nodes}"
        )
        self.assertEqual(status, 0)
        self.assertIn(
            "20 moves, 3 new nodes: agent 1 came back over 3 of 3 explored nodes and went on\n",
            output,
        )
        self.assertIn("must make 19 on this ring\n", output)
        self.assertTrue((self.folder / "find" / "schedule.txt").exists())

    def test_a_team_that_fails_is_refuted(self) -> None:
        status, output = self.play_adversary(
            "--network",
            "ring:8",
            "--agent",
            "examples/agents/faulty/forgets_to_mark.py {nodes}",
        )
        self.assertEqual(status, 1)
        self.assertIn("the team fails with the black hole at node 1: ", output)

    def test_other_networks_and_teams_are_refused(self) -> None:
        agent = "examples/agents/ring.py {nodes}"
        for words in (
            ["--network", "complete:4"],
            ["--network", "ring:8", "--agents", "3"],
            ["--dark", "0,0"],
        ):
            with self.subTest(words=words):
                status, output = self.play_adversary(*words, "--agent", agent)
                self.assertEqual((status, "two agents on a ring" in output), (2, True))

    def test_two_rings_are_no_ring(self) -> None:
        links = [
            *ring(3).links,
            *((v + 3, p, w + 3, q) for v, p, w, q in ring(3).links),
        ]
        with self.assertRaises(NotARingError):
            Adversary(game(Network(6, links), TEAMS["ring"]))
        with self.assertRaises(NotARingError):
            Adversary(game(complete(4), TEAMS["ring"]))
