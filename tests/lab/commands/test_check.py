"""How many schedules `check` draws: enough to say that an agent is right, whatever the
clock says."""
import contextlib
import io
import itertools
import json
import pathlib
import unittest
from typing import Any
from unittest import mock

from arena_lab.__main__ import main
from arena_lab.commands import check
from arena_lab.course import check_steps, check_jobs
from arena_lab.course.check_steps import BY_TURNS, DRAWS, LEAST, SEARCH_NETWORKS
from arena_lab.course.check_jobs import CheckJob, conditions_of
from arena_lab.play.teams import INSIDE, AgentWords
from arena_lab.rules import networks
from tests.support.output import run_call


class Draws(unittest.TestCase):
    def draw(self, pace: float, fails_at: int = -1) -> Any:
        """What comes of drawing on a machine whose clock goes on by these seconds
        whenever it is asked."""
        self.asked: Any = []

        def play(request: Any) -> Any:
            self.asked.append(request)
            return mock.Mock(has_failed=len(self.asked) == fails_at)

        clock = mock.Mock(side_effect=itertools.count(0, pace))
        agent = AgentWords(INSIDE, "examples/agents/ring.py {nodes}")
        results = {"networks": list(check.NETWORKS), **check.DEFAULT_CONDITIONS}
        conditions = conditions_of(results, pathlib.Path(), agent)
        job = CheckJob(agent, conditions, 1.0, None, 60, True)
        with mock.patch.object(
            check_jobs, "processor_seconds", clock
        ), mock.patch.object(check_jobs.MatchRequest, "play", play), mock.patch.object(
            check_steps, "under", return_value="to mend"
        ), mock.patch.object(
            check_steps, "bar"
        ):
            self.tried = check_jobs.CheckBudget(60)
            return check_steps.draw(job, SEARCH_NETWORKS, self.tried)

    def test_a_busy_machine_draws_the_least_number_and_says_so(self) -> None:
        self.assertEqual(self.draw(1_000.0), (LEAST, None))
        self.assertEqual(
            self.tried.left_out, [f"{DRAWS - LEAST} of {DRAWS} drawn schedules"]
        )
        names = {(it.game.name, it.scheduler) for it in self.asked}
        self.assertEqual(names, set(itertools.product(SEARCH_NETWORKS, BY_TURNS)))

    def test_schedules_are_counted_and_half_of_them_are_plain(self) -> None:
        self.assertEqual(self.draw(0.001), (DRAWS, None))
        self.assertEqual(self.tried.left_out, [])
        plain = [
            it.game.match.setup.links == networks.network_named(it.game.name).links
            and it.game.match.setup.home == 0
            for it in self.asked
        ]
        self.assertLess(abs(plain.count(True) - DRAWS / 2), 6)
        # plain and drawn networks alternate
        self.assertEqual(plain[:18], [True] * 9 + [False] * 9)

    def test_the_first_that_fails_ends_it(self) -> None:
        self.assertEqual(self.draw(1_000.0, 3), (2, "to mend"))


class Said(unittest.TestCase):
    """What is printed as JSON."""

    def json_of(self, step: Any) -> Any:
        def check_step(_: Any) -> Any:
            print("14 matches: all solved")
            return step

        out = io.StringIO()
        errors = io.StringIO()
        with mock.patch.object(
            check, "check_agent", check_step
        ), contextlib.redirect_stdout(out), contextlib.redirect_stderr(errors):
            status = main(
                [
                    "check",
                    "examples/agents/ring.py {nodes}",
                    "--json",
                    "--engine",
                    "model",
                    "--keep",
                    "kept",
                ]
            )
        self.assertIn("14 matches", errors.getvalue())
        return status, json.loads(out.getvalue())

    def test_an_agent_that_is_right_and_one_that_is_to_be_mended(self) -> None:
        self.assertEqual(
            self.json_of(("Right on all", None)),
            (0, {"right": True, "said": ["Right on all"], "kept": None}),
        )
        record = mock.Mock(keep=lambda folder: [f"see {folder}"])
        self.assertEqual(
            self.json_of(("", check_steps.Finding(["it fails", "so"], record))),
            (1, {"right": False, "said": ["it fails", "so"], "kept": "kept"}),
        )

    def test_a_tournament_is_left_to_the_program(self) -> None:
        status, _, errors = run_call(main, ["check", "cup.toml", "--engine", "model"])
        self.assertEqual(status, 2)
        self.assertIn(
            "cup.toml: that is no agent; of a tournament it is `arena check cup.toml`",
            errors,
        )
