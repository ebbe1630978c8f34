"""The sample agents solve their networks, whatever the schedule."""
import random
import sys
import unittest

from arena_lab.play import schedulers
from arena_lab.play.agent_files import AgentError, script_of
from arena_lab.play.teams import INSIDE, AgentWords
from arena_lab.rules.networks import ring
from tests.support.drawing import by_chance
from tests.support.matches import (
    MAP,
    RING,
    InFolder,
    fixture,
    network_fixture,
    play_fixture,
    ring_fixture,
    under,
)

RINGS = range(3, 33)


class SampleAgents(unittest.TestCase):
    def test_two_agents_solve_each_ring(self) -> None:
        rng = random.Random(1)
        for nodes in RINGS:
            for hole in {1, 2, nodes // 2, nodes - 1, rng.randrange(1, nodes)} - {
                nodes
            }:
                match_fixture = ring_fixture(nodes, hole, rng)
                seed = rng.randrange(2**32)
                with self.subTest(nodes=nodes, hole=hole, seed=seed):
                    self.assertFalse(
                        play_fixture(match_fixture, RING, seed).has_failed()
                    )

    @by_chance(60)
    def test_more_agents_than_the_greatest_degree_solve_networks(
        self, rng: random.Random
    ) -> None:
        match_fixture = network_fixture(rng)
        self.assertFalse(
            play_fixture(match_fixture, MAP, rng.randrange(60)).has_failed()
        )

    def test_they_do_under_each_scheduler(self) -> None:
        for name, maker in schedulers.SCHEDULER_MAKERS.items():
            for seed in range(5):
                rng = random.Random(seed)
                for agent, match_fixture in (
                    (RING, ring_fixture(12, 1 + seed, rng)),
                    (MAP, network_fixture(rng)),
                ):
                    with self.subTest(scheduler=name, seed=seed, agent=agent.words):
                        self.assertFalse(
                            play_fixture(match_fixture, agent, seed, maker).has_failed()
                        )


ALONE = """
import random
import helper

def search(agent, key):
    agent.enter(key)
    helper.KEYS.append(key)
    raise ValueError(f"{helper.KEYS} {random.random()}")
"""


LATE = """
def search(agent, key):
    agent.enter(key)
    import random
    import helper
    from tools import inner
    helper.KEYS.append(key)
    agent.look()
    import tools.inner as again
    again.KEYS.append(key)
    raise ValueError(f"{helper.NAME} {inner.NAME} {helper.KEYS} {inner.KEYS} {random.random()}")
"""


class Modules(InFolder):
    def test_agents_share_no_module_with_each_other_or_an_earlier_match(self) -> None:
        (self.folder / "helper.py").write_text("KEYS = []\n", encoding="utf-8")
        (self.folder / "alone.py").write_text(ALONE, encoding="utf-8")
        agent = AgentWords(INSIDE, str(self.folder / "alone.py"))
        first, second = (
            play_fixture(fixture(ring(3), 1), agent, 0).faults for _ in range(2)
        )
        self.assertEqual(first, second)
        self.assertEqual(
            [fault.partition(" 0.")[0] for fault in first],
            [
                "agent 0: raises ValueError: ['k0']",
                "agent 1: raises ValueError: ['k1']",
            ],
        )
        self.assertEqual(len({fault.partition("] ")[2] for fault in first}), 2)

    def test_modules_of_the_same_name_are_those_beside_each_agent(self) -> None:
        """Also packages, and modules that are imported late."""
        agents = []
        for name in ("one", "two"):
            beside = self.folder / name
            (beside / "tools").mkdir(parents=True)
            (beside / "helper.py").write_text(
                f"NAME = {name!r}\nKEYS = []\n", encoding="utf-8"
            )
            (beside / "tools" / "__init__.py").write_text(
                "from tools import inner\n", encoding="utf-8"
            )
            (beside / "tools" / "inner.py").write_text(
                f"NAME = {name!r}\nKEYS = []\n", encoding="utf-8"
            )
            (beside / "late.py").write_text(LATE, encoding="utf-8")
            agents.append(AgentWords(INSIDE, str(beside / "late.py")))
        match_fixture = fixture(ring(3), 1)
        before = sys.modules["random"], list(sys.path)
        for _ in range(2):
            result = under(schedulers.fair(0), match_fixture, agents).faults
            self.assertEqual(
                [fault.partition("0.")[0].strip() for fault in result],
                [
                    "agent 0: raises ValueError: one one ['k0'] ['k0']",
                    "agent 1: raises ValueError: two two ['k1'] ['k1']",
                ],
            )
        self.assertEqual((sys.modules["random"], list(sys.path)), before)
        self.assertFalse({"helper", "tools", "tools.inner"} & set(sys.modules))

    def test_words_that_the_function_does_not_take_are_told(self) -> None:
        setup = fixture(ring(4), 2).setup
        for words, message in (
            (RING.words.replace(" {nodes}", ""), "it wants nodes behind the file"),
            (
                RING.words + " {links}",
                "it takes nodes behind the file, and 2 are named",
            ),
            (
                MAP.words.replace(" {links}", ""),
                "it wants nodes, links behind the file",
            ),
        ):
            with self.subTest(words), self.assertRaisesRegex(AgentError, message):
                script_of(words, setup)

    def test_a_file_that_does_not_parse_is_told(self) -> None:
        (self.folder / "broken.py").write_text(
            "def search(agent, key:\n", encoding="utf-8"
        )
        agent = AgentWords(INSIDE, str(self.folder / "broken.py"))
        with self.assertRaisesRegex(
            AgentError, r"broken.py, line 1: '\(' was never closed"
        ):
            play_fixture(fixture(ring(3), 1), agent, 0)
