"""What `explore` and `hunt` find: the worst that is known of the sample search, and
what its wrong versions do."""
import argparse
import itertools
import re
from typing import List
from unittest import mock

from arena_lab.__main__ import main, parser
from arena_lab.command_line.arguments import games_of
from arena_lab.play.games import play_seed
from arena_lab.play.teams import INSIDE, AgentWords, Game
from arena_lab.rules import networks
from arena_lab.rules.networks import ring
from arena_lab.search import model_search, history_tree, hunts
from tests.integration.search.test_brute import outcomes_of
from tests.support import mutants
from tests.support.matches import FAULTY, MAP, RING, fixture, program
from tests.support.output import InTemporary, run_call

WORST = {3: 4, 4: 9, 5: 14, 6: 23}
BY_MODEL = ("--search", "model")
# agents that do something else although they are told the same, or have other faults
ODD = (
    FAULTY
    + """
import random
from ring import Search, Walker

def drawn(agent, key, nodes):
    walker = Walker(agent, agent.enter(key))
    for _ in range(random.SystemRandom().randrange(5)):
        agent.look()
    Search(walker, nodes).run()

def computes(agent, key):
    agent.enter(key)
    while True:
        pass
"""
)


FORGETFUL = mutants.FOLDER / "forgets_to_mark.py"


class Searches(InTemporary):
    def setUp(self) -> None:
        super().setUp()
        (self.folder / "odd.py").write_text(ODD, encoding="utf-8")

    def command(self, *words: str) -> int:
        status, output, errors = run_call(
            main, [*map(str, words), "--program", program()]
        )
        self.said = output + errors
        return status

    def kept_files(self) -> List[str]:
        return ["--keep", str(self.folder / "find")]


class Exploring(Searches):
    def explorer(self, *words: str) -> model_search.Explorer:
        args: argparse.Namespace = parser().parse_args(["explore", *words])
        (game,) = games_of(args)
        return model_search.explore_match(
            game.fixtures()[-1], game.agents, mock.Mock()
        ).explorer

    def test_the_most_moves_on_rings(self) -> None:
        for nodes, moves in WORST.items():
            with self.subTest(nodes=nodes):
                status = self.command(
                    "explore",
                    *BY_MODEL,
                    "--network",
                    f"ring:{nodes}",
                    "--agent",
                    RING.words,
                    *self.kept_files(),
                )
                self.assertEqual(status, 0, self.said)
                self.assertIn("no schedule fails, of the Python model", self.said)
                self.assertIn(
                    f"the program's verdict: solved moves {moves} lost 1", self.said
                )

    def test_steps_that_meet_nobody_need_no_other_order(self) -> None:
        for words in (
            ["--network", "ring:5", "--hole", "3", "--agent", RING.words],
            [
                "--network",
                "ring:3",
                "--hole",
                "2",
                "--agents",
                "3",
                "--agent",
                MAP.words,
            ],
        ):
            with self.subTest(words=words):
                few = self.explorer(*words)
                with mock.patch.object(
                    history_tree.Pasts, "_is_local", lambda self, past: False
                ):
                    all_orders = self.explorer(*words)
                self.assertLess(few.states(), all_orders.states())
                self.assertEqual(few.worst[:2], all_orders.worst[:2])

    def test_all_schedules_one_by_one_come_to_the_same(self) -> None:
        for name, words in (
            ("the search", RING.words),
            ("a wrong one", f"{FORGETFUL} {{nodes}}"),
        ):
            with self.subTest(name):
                explorer = self.explorer(
                    "--network", "ring:3", "--hole", "1", "--agent", words
                )
                match_fixture = fixture(ring(3), 1)
                scripts = [AgentWords(INSIDE, words).script(match_fixture.setup)] * 2
                self.assertIsNone(
                    outcomes_of(match_fixture, scripts, 100), "there are few schedules"
                )
                ends = outcomes_of(match_fixture, scripts, 100_000)
                assert ends is not None
                self.assertIn(
                    (*explorer.worst.verdict, explorer.worst.has_failed), ends
                )
                self.assertEqual(
                    explorer.worst.has_failed, any(end.has_failed for end in ends)
                )
                if not explorer.worst.has_failed:
                    self.assertEqual(
                        explorer.worst.verdict.moves, max(end.moves for end in ends)
                    )

    def test_an_agent_that_is_no_function_is_told(self) -> None:
        agent = f"{self.folder}/odd.py:drawn 4"
        status = self.command(
            "explore",
            *BY_MODEL,
            "--network",
            "ring:4",
            "--agent",
            agent,
            *self.kept_files(),
        )
        self.assertEqual(status, 2)
        self.assertIn(
            "explore needs agents that are functions of what they are told", self.said
        )

    def test_it_stops_at_the_most_states(self) -> None:
        words = [
            "explore",
            *BY_MODEL,
            "--network",
            "ring:6",
            "--max-states",
            "5000",
            "--agent",
            RING.words,
        ]
        self.assertEqual(self.command(*words, *self.kept_files()), 130)
        self.assertIn("stopped before all were visited", self.said)

    def test_what_is_kept_is_played_to_the_same_moves(self) -> None:
        """Also where agents sleep."""
        words = [
            "--network",
            "ring:3",
            "--hole",
            "1",
            "--agents",
            "3",
            "--agent",
            MAP.words,
        ]
        worst = self.explorer(*words).worst.verdict
        self.command("explore", *BY_MODEL, *words, *self.kept_files())
        self.assertIn(f"the program's verdict: {worst}", self.said)


class Hunting(Searches):
    def test_the_most_moves_of_a_ring(self) -> None:
        status = self.command(
            "hunt",
            "--network",
            "ring:8",
            "--agent",
            RING.words,
            "--objective",
            "moves",
            "--runs",
            "1000",
            "--database",
            str(self.folder / "db"),
            *self.kept_files(),
        )
        self.assertEqual(status, 0, self.said)
        self.assertIn("the program's verdict: solved moves 37 lost 1", self.said)
        self.assertEqual(self.command("replay", self.folder / "find"), 0)

    def test_draws_come_first(self) -> None:
        for name in ("reads_once", "forgets_to_mark", "counts_naps"):
            position = mutants.PLANS[name].hunt_plan
            network = position.network
            count = position.agents
            words = mutants.agent_of(name)
            with self.subTest(name):
                game = Game(
                    network,
                    networks.network_named(network),
                    [AgentWords(INSIDE, words)] * count,
                )
                first = next(
                    it
                    for it in itertools.count(1)
                    if play_seed(game, "fair", it - 1, None).has_failed
                )
                self.assertEqual(
                    1,
                    self.command(
                        "hunt",
                        "--network",
                        network,
                        "--agent",
                        words,
                        "--agents",
                        str(count),
                        "--database",
                        str(self.folder / "db"),
                        *self.kept_files(),
                    ),
                )
                match = re.search(
                    r"^(\d+) schedules were tried: the team fails, first under number (\d+)$",
                    self.said,
                    re.M,
                )
                assert match is not None, self.said
                self.assertEqual(int(match[2]), first)
                # the find is made small
                self.assertGreater(int(match[1]), first)

    def test_changed_schedules_come_next_and_earlier_finds_before(self) -> None:
        words = [
            "hunt",
            "--network",
            "ring:8",
            "--agent",
            f"{mutants.FOLDER / 'divides_unevenly.py'} {{nodes}}",
            "--runs",
            "120",
            "--database",
            str(self.folder / "db"),
            *self.kept_files(),
        ]
        for expectation in (
            r"first under number (6[1-9]|[789]\d|1[012]\d)$",
            r"first under number 1$",
        ):
            self.assertEqual(self.command(*words), 1, self.said)
            self.assertRegex(self.said, re.compile(expectation, re.M))

    def test_agents_with_faults(self) -> None:
        for name, fault in (
            ("raises", "agent 0: raises KeyError: 'west'"),
            ("refused", "agent 0: was refused 1000 times in a row"),
            ("sleeps", "agent 0: sleeps, and nothing changes any more"),
            (
                "computes",
                "agent 0: has computed for 0.2 s, and neither sends nor waits",
            ),
        ):
            with self.subTest(name):
                status = self.command(
                    "run",
                    "--network",
                    "ring:3",
                    "--timeout",
                    "0.2",
                    "--agent",
                    f"{self.folder}/odd.py:{name}",
                )
                self.assertEqual(status, 1)
                self.assertIn(fault, self.said)

    def test_a_hunt_that_is_interrupted_says_what_it_has(self) -> None:
        real = hunts.play
        tries = iter(range(10))

        def play(*args: object) -> object:
            if next(tries, None) is None:
                raise KeyboardInterrupt
            return real(*args)

        with mock.patch.object(hunts, "play", play):
            status = self.command(
                "hunt",
                "--network",
                "ring:8",
                "--agent",
                RING.words,
                "--objective",
                "moves",
                "--database",
                str(self.folder / "db"),
                *self.kept_files(),
            )
        self.assertEqual(status, 130, self.said)
        self.assertIn(
            "interrupted; this was found:\n10 schedules were tried", self.said
        )


class Mutants(Searches):
    def test_two_are_caught(self) -> None:
        for name in ("reads_once", "counts_nodes_alone", "counts_naps"):
            with self.subTest(name):
                for result in mutants.caught(name, program()):
                    self.assertTrue(result.is_caught)
                    self.assertNotEqual(result.verdict.outcome, "solved")

    def test_a_timeout_fails_under_a_scheduler_if_agents_may_nap(self) -> None:
        agent = f"{mutants.FOLDER / 'counts_naps.py'} {{nodes}} {{links}}"
        words = [
            "run",
            "--network",
            "ring:8",
            "--agents",
            "3",
            "--agent",
            agent,
            "--runs",
            "10",
            "--engine",
            "model",
        ]
        self.assertEqual(self.command(*words, "--spurious-wakeups", "1"), 0)
        self.assertEqual(self.command(*words, *self.kept_files()[:2]), 1)
        self.assertEqual(
            self.command("replay", self.folder / "find", "--engine", "model"), 0
        )

    def test_each_has_a_plan(self) -> None:
        self.assertEqual(
            sorted(path.stem for path in mutants.FOLDER.glob("*.py")),
            sorted(mutants.PLANS),
        )
