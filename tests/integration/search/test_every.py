"""What `explore` finds by the program: what is known of the sample agents, their wrong
versions, and agents that sleep, poll, raise or are spent; and it agrees with the Python
model's search of machines that are drawn."""
import contextlib
import random
import re
import subprocess
from typing import Dict, List, Tuple
from unittest import mock

from arena_lab.__main__ import main
from arena_lab.play.matches import STUCK
from arena_lab.play.teams import Game
from arena_lab.rules.fixtures import Fixture
from arena_lab.search.model_search import End, explore_match
from arena_lab.search.findings import Breaks, Fails, Finding, Solves, name_of
from arena_lab.search.history_tree import NoFunctionError
from arena_lab.search.machines import Machines
from arena_lab.search.program_search import run_search
from arena_lab.search.sampled_runs import follow
from tests.integration.search.exploring import InExplore
from tests.integration.search.odd_agents import LONG, ODD, OWN
from tests.support.matches import AGENTS, KNOWN_MAP, MAP, RING, program
from tests.support.mutants import FOLDER

SOLVED = "every schedule that the lab tried solves, by histories of Python programs"
# how many drawn ends, and drawn machines, are compared
ENDS = 60
MACHINES = 20


class Exploring(InExplore):
    def setUp(self) -> None:
        super().setUp()
        (self.folder / "odd.py").write_text(ODD, encoding="utf-8")
        (self.folder / "own.py").write_text(OWN, encoding="utf-8")

    def odd(self, name: str) -> List[str]:
        return ["--agent", f"{self.folder}/odd.py:{name}"]

    def test_the_most_moves_on_rings(self) -> None:
        for nodes, moves in {3: 4, 5: 14}.items():
            with self.subTest(nodes=nodes):
                status = self.command(
                    "--network", f"ring:{nodes}", "--agent", RING.words, "--check", 2
                )
                self.assertEqual(status, 0, self.output)
                self.assertIn(SOLVED, self.output)
                self.assertIn(
                    f"most moves {moves}, most agents lost 1, most turns ", self.output
                )
                self.assertNotIn("warning", self.output)

    def test_several_networks_end_in_a_table(self) -> None:
        status = self.command(
            "--network",
            "ring:3..4",
            "--network",
            "torus:3x3",
            "--agent",
            RING.words,
            "--check",
            2,
        )
        self.assertEqual(status, 1, self.output)
        table = self.output.partition("network matches states moves lost seconds\n")[
            2
        ].split("\n")
        self.assertEqual(
            [row.split()[:5] for row in table[:2]],
            [["ring:3", "2", "106", "4", "1"], ["ring:4", "3", "1283", "9", "1"]],
        )
        self.assertNotIn("torus", "".join(table))

    def test_other_sample_agents(self) -> None:
        for words in (
            ["--network", "hypercube:2", "--hole", "3", "--agent", KNOWN_MAP.words],
            [
                "--network",
                "ring:3",
                "--hole",
                "2",
                "--agents",
                "2",
                "--spurious-wakeups",
                "0",
                "--agent",
                MAP.words,
            ],
        ):
            with self.subTest(words=words):
                self.assertEqual(self.command(*words), 0, self.output)
                self.assertIn(SOLVED, self.output)

    def test_wrong_versions_are_found_out(self) -> None:
        for name, network in (("forgets_to_mark", "ring:4"), ("reads_once", "ring:4")):
            with self.subTest(name):
                agent = f"{FOLDER / name}.py {{nodes}}"
                self.assertEqual(
                    self.command("--network", network, "--agent", agent), 1
                )
                self.assertIn("a schedule fails\nit comes to: ", self.output)
                verdict = (
                    self.output.partition("it comes to: ")[2]
                    .partition("\n")[0]
                    .rpartition(", ")[2]
                )
                self.assertIn(f"the program's verdict: {verdict}", self.output)
                self.assertEqual(
                    main(["replay", str(self.folder / "find"), "--program", program()]),
                    0,
                )

    def test_what_goes_on_for_ever(self) -> None:
        match = ["--network", "ring:3", "--hole", 1]
        for names, fair in (
            (["enters_again"], "and it is not fair"),
            (["enters_again", "knows"], "and it is fair"),
            (["knows", "enters_again"], "and it is fair"),
        ):
            with self.subTest(names):
                agents = [word for name in names for word in self.odd(name)]
                self.assertEqual(self.command(*match, *agents), 1, self.output)
                self.assertIn(f"a schedule goes on for ever, {fair}", self.output)

    def test_an_agent_that_polls_spends_its_quota(self) -> None:
        for name in ("polls", "is_refused"):
            with self.subTest(name):
                status = self.command(
                    "--network", "ring:3", "--hole", 1, "--quota", 4, *self.odd(name)
                )
                self.assertEqual(status, 1, self.output)
                self.assertRegex(
                    self.output,
                    "agent [01] may use 5 commands: the Python model's search takes over",
                )

    def test_agents_that_give_up_after_more_naps_are_told_of(self) -> None:
        match = [
            "--network",
            "ring:3",
            "--hole",
            2,
            *self.odd("writes_first"),
            *self.odd("gives_up"),
        ]
        for naps in (0, 2):
            with self.subTest(naps=naps):
                self.assertEqual(
                    self.command(*match, "--spurious-wakeups", naps), 0, self.output
                )
                self.assertIn(f", if agents nap at most {naps} times\n", self.output)
                self.assertIn(
                    "what they do when they wake once more is not known: "
                    f"try --spurious-wakeups {naps + 1}\n",
                    self.output,
                )
        self.assertEqual(self.command(*match, "--spurious-wakeups", 3), 1, self.output)

    def test_a_sleeper_that_waits_for_nothing(self) -> None:
        self.assertEqual(
            self.command("--network", "ring:3", "--hole", 1, *self.odd("sleeps")), 1
        )
        self.assertIn("sleeps, and nothing changes any more", self.output)

    def test_an_agent_fails_whatever_the_verdict(self) -> None:
        at_the_end = (
            "under a schedule agent 1 fails when it is told that the match is over"
        )
        for names, result, fault in (
            (["knows"], "", ""),
            (["knows_and_naps"], "", ""),
            (
                ["knows_and_raises"],
                "under a schedule agent 0 fails",
                "agent 0: raises KeyError: 'east'",
            ),
            (
                ["knows_and_sleeps"],
                "under a schedule agent 0 fails",
                f"agent 0: {STUCK}",
            ),
            (
                ["knows", "crashes_when_it_is_over 1"],
                at_the_end,
                "agent 1: raises AttributeError: nothing was seen",
            ),
            (
                ["knows", "crashes_on_its_link"],
                "under a schedule agent 1 fails",
                "agent 1: raises AttributeError: nobody is told",
            ),
            (
                ["knows", "stays_outside"],
                f"under a schedule agent 1 {STUCK}",
                f"agent 1: {STUCK}",
            ),
        ):
            with self.subTest(names=names):
                agents = [word for name in names for word in self.odd(name)]
                status = self.command("--network", "ring:3", "--hole", 2, *agents)
                self.assertEqual(status, 1 if result else 0, self.output)
                self.assertIn(f"{result}, " if result else SOLVED, self.output)
                self.assertIn(f"\n{fault}", self.output)

    def test_agents_that_do_not_enter(self) -> None:
        for name, fault in (
            ("enters_as_another", "enters with the key of another agent"),
            ("looks_first", "raises NotEntered: enter"),
        ):
            with self.subTest(name):
                self.assertEqual(
                    self.command("--network", "ring:3", "--hole", 1, *self.odd(name)), 1
                )
                self.assertIn(f"agent 0: {fault}", self.output)

    def test_a_quota_that_does_not_suffice(self) -> None:
        status = self.command(
            "--network", "ring:3", "--hole", 2, "--quota", 5, *self.odd("counts")
        )
        self.assertEqual(status, 1, self.output)
        self.assertIn(
            "agent 0 may use 6 commands: the Python model's search takes over",
            self.output,
        )

    def test_too_many_states(self) -> None:
        self.assertEqual(
            self.command(
                "--network", "ring:5", "--max-states", 20, "--agent", RING.words
            ),
            130,
        )
        self.assertIn("more states than were to be visited", self.output)
        self.assertIn("stopped before all were visited", self.output)

    def test_ctrl_c_ends_it_with_what_was_found(self) -> None:
        with mock.patch(
            "arena_lab.search.program_search.ProgramRun.answer",
            side_effect=KeyboardInterrupt,
        ):
            self.assertEqual(
                self.command("--network", "ring:3", "--agent", RING.words), 130
            )
        self.assertIn(
            "stopped before all were visited; no schedule failed until then",
            self.output,
        )

    def test_it_is_told_how_long_the_program_works(self) -> None:
        game, fixture = self.game(
            "--network", "ring:6", "--hole", "1", "--agent", RING.words
        )
        view = mock.Mock()
        with mock.patch("arena_lab.search.program_search.PAUSE", 0.01):
            self.explore(fixture, game.agents, view=view)
        self.assertRegex(
            view.set_postfix_str.call_args.args[0],
            r"^the program works for \d+ s and takes \d+ MB$",
        )

    def test_it_is_told_how_far_a_long_search_is(self) -> None:
        _, fixture = self.game(
            "--network", "ring:3", "--hole", "1", "--agent", RING.words
        )
        long = self.folder / "long"
        long.write_text(LONG, encoding="utf-8")
        long.chmod(0o755)
        view = mock.Mock()
        machines = mock.Mock(modules=[])
        with mock.patch("arena_lab.search.program_search.PAUSE", 0.01):
            answer = run_search(str(long), fixture, machines, 1_000_000, view)
        self.assertEqual(answer.states, 600_000)
        all_told = [call.args[0] for call in view.set_postfix_str.call_args_list]
        for states in ("262,144", "524,288"):
            far = re.compile(
                rf" MB: {states} states, [\d,]+ a second, 37 turns on the path$"
            )
            self.assertTrue(any(map(far.search, all_told)), states)

    def test_programs_of_their_own(self) -> None:
        for how in ("declares", "says nothing"):
            with self.subTest(how):
                team = f"python3 {self.folder}/own.py {{port}} {{key}} '{how}'"
                match = ["--network", "ring:3", "--hole", 2, "--agents", 1]
                status = self.command(*match, "--command", team, "--check", 1)
                self.assertEqual(status, 0, self.output)
                self.assertIn(
                    "every schedule that the lab tried solves, by histories or declared memories of programs",
                    self.output,
                )
        built = self.folder / "ring"
        subprocess.run(["cc", "-O2", "-o", built, AGENTS / "ring.c"], check=True)
        status = self.command(
            "--network", "ring:3", "--command", f"{built} {{port}} {{key}} {{nodes}}"
        )
        self.assertEqual(status, 0, self.output)
        self.assertIn("most moves 4, most agents lost 1", self.output)

    def test_a_held_link(self) -> None:
        match = ["--network", "ring:3", "--hole", "2", "--agents", "1"]
        game, fixture = self.game(*match, *self.odd("knows"))
        answer = self.explore(fixture._replace(held=[(0, 0)]), game.agents)
        self.assertEqual(answer.finding, Fails("silent", 1, 0, (0, 0)))

    def test_an_agent_that_is_no_function_is_found_by_drawn_schedules(self) -> None:
        game, fixture = self.game(
            "--network", "ring:3", "--hole", "1", *self.odd("hides")
        )
        for is_told_all in (True, False):
            with self.subTest(is_told_all=is_told_all), contextlib.ExitStack() as stack:
                machines = Machines(fixture, game.agents, 5)
                machines.start()
                stack.callback(machines.stop)
                if not is_told_all:
                    # one history for all whiteboards
                    plain = machines.next
                    empty = re.compile('"board":"[^"]*"')
                    stack.enter_context(
                        mock.patch.object(
                            machines,
                            "next",
                            lambda before, news: plain(
                                before, empty.sub('"board":""', news)
                            ),
                        )
                    )
                    stack.enter_context(self.assertRaises(NoFunctionError))
                for seed in range(20):
                    follow(fixture, game.agents, machines, seed, 5)

    def test_drawn_ends_are_failures_of_both(self) -> None:
        """One agent solves the match, and the other comes to an end that is drawn."""
        kinds: Dict[str, int] = {}
        for seed in range(ENDS):
            naps = str(seed % 3)
            game, fixture = self.game(
                "--network",
                "ring:3",
                "--hole",
                "2",
                "--spurious-wakeups",
                naps,
                *self.odd("knows"),
                *self.odd(f"ends {seed}"),
            )
            result, beside = self.both(game, fixture, check=2)
            kinds[name_of(type(result))] = kinds.get(name_of(type(result)), 0) + 1
            self.assertEqual(
                not isinstance(result, Solves),
                beside.has_failed,
                (seed, result, beside),
            )
        self.assertLessEqual({"solves", "breaks", "fails"}, set(kinds), kinds)

    def both(self, game: Game, fixture: Fixture, check: int = 0) -> Tuple[Finding, End]:
        """What the program finds, and the worst end by the Python model."""
        result = self.explore(fixture, game.agents, check=check).finding
        beside = explore_match(fixture, game.agents, mock.Mock()).explorer.worst
        assert beside is not None and result is not None
        return result, beside

    def test_drawn_machines_come_to_what_the_model_comes_to(self) -> None:
        kinds: Dict[str, int] = {}
        for seed in range(MACHINES):
            kind = self.compare(seed)
            kinds[kind] = kinds.get(kind, 0) + 1
        self.assertLessEqual({"fails", "solves", "exceeds"}, set(kinds), kinds)

    def compare(self, seed: int) -> str:
        """Compares both searches of a drawn match; gives what the program found."""
        rng = random.Random(seed)
        machines = [
            f"machine {rng.randrange(10 ** 6)} {rng.randrange(1, 4)}" for _ in range(2)
        ]
        if rng.random() < 0.5:
            machines[1] = machines[0]
        network = rng.choice(["ring:3", "ring:4"])
        match = [
            "--network",
            network,
            "--hole",
            str(rng.randrange(1, int(network[-1]))),
        ]
        match += [
            "--quota",
            str(rng.randrange(3, 9)),
            "--spurious-wakeups",
            str(rng.randrange(3)),
        ]
        game, fixture = self.game(
            *match, *(word for machine in machines for word in self.odd(machine))
        )
        result, beside = self.both(game, fixture)
        if isinstance(result, (Fails, Breaks)):
            self.assertTrue(beside.has_failed, (seed, result, beside))
        elif isinstance(result, Solves):
            self.assertFalse(beside.has_failed, (seed, result, beside))
            self.assertEqual(
                (beside.verdict.outcome, beside.verdict.moves),
                ("solved", result.moves),
                (seed, beside),
            )
        return name_of(type(result))
