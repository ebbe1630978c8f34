"""Agents that keep a chart solve networks without a map, with whiteboards of the least
size; agents with a mistake do not."""
import contextlib
import io
import random
import sys
from typing import Dict, Tuple

from arena_lab import api
from arena_lab.play import schedulers
from arena_lab.play.matches import PlayedMatch
from arena_lab.play.teams import INSIDE, OUTSIDE, AgentWords
from arena_lab.rules.fixtures import fixture_of
from arena_lab.rules.model import Setup
from arena_lab.rules.networks import complete, draw_network
from tests.program.unmapped_networks import CHART, CUBIC, QUOTA, Search
from tests.support.drawing import by_chance
from tests.support.matches import AGENTS, InFolder, play_fixture, program

AGENT = AGENTS / "chart.py"
WORDS = "{nodes} {links}"
# a mistake by its name: what stands in chart.py, and what stands there then
WRONG: Dict[str, Tuple[str, str]] = {
    "goes to a port without writing that it is claimed": (
        "return swap(claim, chart.marked(*free[0], CLAIMED).text())",
        'return claims(claim, {"ok": "written"}, known)',
    ),
    "reports a port without the row of the node": (".joined(at.found)", ""),
    "does not look when it wakes": (
        'return Memory("looks"), {"do": "look"}',
        'return Memory("sleeps"), {"do": "sleep"}',
    ),
    "counts the nodes alone": ("and ports_left == links_of_hole", ""),
    "overwrites what another has written since": (
        '(decides if reply["ok"] == "written" else returns)',
        "decides",
    ),
}


def play_search(
    search: Search, agents: int, words: str, seed: int, name: str
) -> PlayedMatch:
    """A match of these agents under a scheduler, with the least whiteboards."""
    setup = Setup(
        search.network.nodes,
        search.network.links,
        search.home,
        [search.hole],
        agents,
        QUOTA,
        search.board,
    )
    agent = AgentWords(INSIDE, words)
    return play_fixture(
        fixture_of(setup), agent, seed, schedulers.SCHEDULER_MAKERS[name]
    )


class Charts(InFolder):
    @by_chance(60)
    def test_one_agent_more_than_the_hole_has_links_solves_networks(
        self, rng: random.Random
    ) -> None:
        network = draw_network(rng)
        home, hole = rng.sample(range(network.nodes), 2)
        is_cubic = max(network.degrees()) <= CUBIC
        links = rng.choice([len(network.links), 0][: 1 + is_cubic])
        search = Search(network, home, hole, links)
        agents = search.degree + 1
        words = f"{AGENT} {{nodes}} {links}"
        name = rng.choice(sorted(schedulers.SCHEDULER_MAKERS))
        match = play_search(search, agents, words, rng.randrange(60), name)
        self.assertFalse(match.has_failed())
        self.assertLessEqual(match.verdict().lost, search.degree)
        self.assertLessEqual(match.verdict().moves, search.most_moves(agents))

    def test_agents_with_a_mistake_fail(self) -> None:
        search = Search(complete(4), 0, 2, 6)
        text = AGENT.read_text(encoding="utf-8")
        for mistake, (before, after) in WRONG.items():
            with self.subTest(mistake):
                self.assertEqual(text.count(before), 1)
                path = self.folder / "wrong.py"
                path.write_text(text.replace(before, after), encoding="utf-8")
                self.assertTrue(
                    any(
                        play_search(
                            search, 4, f"{path} {WORDS}", seed, "slow-agents"
                        ).has_failed()
                        for seed in range(20)
                    )
                )

    def test_a_whiteboard_that_is_too_small_ends_the_search(self) -> None:
        search = Search(complete(4), 0, 2, 6)
        setup = Setup(4, search.network.links, 0, [2], 4, QUOTA, search.board - 1)
        agent = AgentWords(INSIDE, f"{AGENT} {WORDS}")
        for seed in range(10):
            with contextlib.redirect_stderr(io.StringIO()) as errors:
                match = play_fixture(fixture_of(setup), agent, seed)
            self.assertTrue(match.has_failed())
            self.assertIn("longer than a whiteboard holds", str(match.refusals))
            self.assertIn("the whiteboard is too small", errors.getvalue())

    def test_they_solve_as_programs(self) -> None:
        setup = Setup(4, complete(4).links, 0, [2], 4, QUOTA, 33)
        words = f"{sys.executable} {AGENT} {{host}} {{port}} {{key}} 4 6"
        match = play_fixture(fixture_of(setup), AgentWords(OUTSIDE, words), 0)
        self.assertFalse(match.has_failed())

    def test_the_module_makes_the_same_search(self) -> None:
        results = [
            api.explore("ring:3", words, count=3, board=16, engine=program())
            for words in (f"{AGENT} {WORDS}", f"{CHART}:{{nodes}},{{links}}")
        ]
        self.assertTrue(all(result.solves for result in results))
        self.assertEqual(results[0].most_moves, results[1].most_moves)
