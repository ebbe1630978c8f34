"""What `explore --draws` finds by the program. No drawn schedule has more moves than a
search of all schedules finds, a hunt finds the most moves on small rings, and the
agents play the kept schedule to the same verdict."""
import statistics
from typing import Optional, Tuple

from arena_lab import api as lab
from arena_lab.__main__ import main
from arena_lab.commands.explore import SCHEDULERS
from arena_lab.search.sample_reports import moves_of
from arena_lab.search.findings import Comes, ExploreAnswer, SampleCounts, Solves
from arena_lab.search.program_search import SampleRequest
from tests.integration.search.exploring import InExplore
from tests.support.matches import RING, RING_STEP, program
from tests.support.mutants import FOLDER


class Drawing(InExplore):
    def on_ring(
        self, network: str, hole: int, draws: Optional[SampleRequest]
    ) -> ExploreAnswer:
        """What the program finds of two agents on a ring, under all schedules or under
        those that are drawn."""
        game, fixture = self.game(
            "--network", network, "--hole", str(hole), "--agent", RING_STEP.words
        )
        return self.explore(fixture, game.agents, draws=draws)

    def draw(
        self, network: str, hole: int, draws: SampleRequest
    ) -> Tuple[Comes, SampleCounts]:
        """Returns the worst drawn schedule, none of which may fail, and the counts."""
        answer = self.on_ring(network, hole, draws)
        assert isinstance(answer.finding, Comes) and answer.samples
        return answer.finding, answer.samples

    def test_drawn_schedules_lie_within_what_is_proved(self) -> None:
        for network, hole in (("ring:4", 2), ("ring:5", 3)):
            proof = self.on_ring(network, hole, None).finding
            assert isinstance(proof, Solves)
            for scheduler in SCHEDULERS:
                with self.subTest(network=network, hole=hole, scheduler=scheduler):
                    result, draw = self.draw(
                        network, hole, SampleRequest(200, 1, scheduler, None)
                    )
                    self.assertEqual((draw.solved, draw.failed), (200, 0))
                    self.assertEqual(
                        [
                            sum(times for _, times in of)
                            for of in (draw.moves, draw.lost)
                        ],
                        [200, 200],
                    )
                    self.assertEqual(result.moves, draw.moves[-1][0])
                    self.assertLessEqual(result.moves, proof.moves)
                    self.assertLessEqual(len(result.schedule), proof.turns)
                    self.assertLessEqual(draw.turns, 200 * proof.turns)
                    self.assertLessEqual(draw.lost[-1][0], proof.lost)

    def test_a_hunt_comes_to_the_most_moves(self) -> None:
        for network, hole, scheduler in (
            ("ring:5", 2, "fair"),
            ("ring:6", 4, "slow-agents"),
        ):
            with self.subTest(network=network, hole=hole):
                proof = self.on_ring(network, hole, None).finding
                hunt_result, _ = self.draw(
                    network, hole, SampleRequest(2000, 2, scheduler, "moves")
                )
                assert isinstance(proof, Solves)
                self.assertEqual(hunt_result.moves, proof.moves)

    def test_schedules_are_drawn_as_the_schedulers_of_the_lab_draw(self) -> None:
        for scheduler in SCHEDULERS:
            with self.subTest(scheduler=scheduler):
                _, draw = self.draw(
                    "ring:6", 3, SampleRequest(2000, 3, scheduler, None)
                )
                rows = lab.play(
                    "ring:6",
                    RING.words,
                    scheduler,
                    count=2,
                    holes=[3],
                    seeds=300,
                    engine="model",
                )
                moves = [row["moves"] for row in rows]
                error = statistics.stdev(moves) / len(moves) ** 0.5
                self.assertAlmostEqual(
                    moves_of(draw.moves).mean,
                    statistics.fmean(moves),
                    delta=5 * error + 0.01,
                )

    def test_what_is_drawn_is_a_function_of_the_seed(self) -> None:
        runs = [
            self.draw("ring:6", 3, SampleRequest(100, seed, "slow-agents", None))
            for seed in (1, 1, 2)
        ]
        self.assertEqual(runs[0], runs[1])
        self.assertNotEqual(runs[0][1].turns, runs[2][1].turns)

    def test_the_agents_play_what_is_kept(self) -> None:
        status = self.command(
            "--network",
            "ring:5",
            "--agent",
            RING_STEP.words,
            "--draws",
            200,
            "--objective",
            "moves",
            "--check",
            2,
        )
        self.assertEqual(status, 0, self.output)
        self.assertIn("800 drawn schedules, ", self.output)
        self.assertIn(
            "checked, and all agree: 2 drawn schedules, 200 histories told in other processes\n",
            self.output,
        )
        self.assertIn(
            "most moves: home 0 holes [1], solved moves 14 lost 1\n", self.output
        )
        self.assertIn("the program's verdict: solved moves 14 lost 1", self.output)
        self.assertEqual(
            main(["replay", str(self.folder / "find"), "--program", program()]), 0
        )

    def test_a_wrong_version_is_found_out(self) -> None:
        for hunt in ([], ["--objective", "lost"]):
            with self.subTest(hunt=hunt):
                agent = f"{FOLDER / 'reads_once'}.py {{nodes}}"
                match = ["--network", "ring:4", "--hole", 2, "--agent", agent]
                self.assertEqual(self.command(*match, "--draws", 100, *hunt), 1)
                self.assertIn("a schedule fails\nit comes to: ", self.output)
                verdict = (
                    self.output.partition("it comes to: ")[2]
                    .partition("\n")[0]
                    .rpartition(", ")[2]
                )
                self.assertIn(f"the program's verdict: {verdict}", self.output)

    def test_what_has_too_many_turns(self) -> None:
        self.assertEqual(
            self.command(
                "--network",
                "ring:5",
                "--agent",
                RING.words,
                "--draws",
                5,
                "--max-states",
                9,
            ),
            130,
        )
        self.assertIn(
            "a drawn schedule has more turns than --max-states allows", self.output
        )

    def test_a_quota_that_does_not_suffice(self) -> None:
        words = ["--network", "ring:5", "--agent", RING.words, "--draws", 5]
        self.assertNotEqual(self.command(*words, "--quota", 6), 0)
        self.assertIn("give a larger --quota", self.output)

    def test_options_of_draws_need_draws(self) -> None:
        ring = ["--network", "ring:4", "--agent", RING.words]
        for words, message in (
            (["--seed", 1], "--seed needs --draws"),
            (["--scheduler", "fair"], "--scheduler needs --draws"),
            (["--objective", "lost"], "--objective needs --draws"),
            (["--draws", 2, "--search", "model"], "--draws needs the program's search"),
        ):
            with self.subTest(words=words):
                self.assertEqual(self.command(*ring, *words), 2)
                self.assertIn(message, self.output)

    def test_least_mean_median_and_most(self) -> None:
        self.assertEqual(moves_of([(2, 1), (4, 2), (9, 1)]), (2, 4.75, 4, 9))
        self.assertEqual(moves_of([(2, 1), (5, 1)]), (2, 3.5, 3.5, 5))
