"""What a grading stands on: users of programs, what is said of programs, and the time
and the space of teams."""
import concurrent.futures
import errno
import os
import pathlib
import unittest
from typing import Any, List
from unittest import mock

from arena_lab.course import pool
from arena_lab.play import bounds, mistakes
from arena_lab.sandbox import processes, users


class Users(unittest.TestCase):
    def test_they_have_no_names(self) -> None:
        self.assertGreater(len(users.unnamed_users()), 1000)
        self.assertNotIn(0, users.unnamed_users())

    @unittest.skipUnless(os.geteuid() == 0, "only root can let programs be other users")
    def test_nobody_gets_one_that_another_has(self) -> None:
        with mock.patch.object(users, "unnamed_users", lambda: users.USERS[:2]):
            with users.claim_user() as first, users.claim_user() as second:
                self.assertEqual({first, second}, set(users.USERS[:2]))
                with self.assertRaisesRegex(
                    users.UserError, "are taken"
                ), users.claim_user():
                    pass

    def test_a_process_that_ends_meanwhile_is_passed_over(self) -> None:
        lost_folder = mock.Mock(
            side_effect=ProcessLookupError(errno.ESRCH, "No such process")
        )
        with mock.patch.multiple(
            pathlib.Path,
            exists=lost_folder,
            read_bytes=lost_folder,
            read_text=lost_folder,
        ):
            self.assertEqual(users.processes_of(os.geteuid()), [])
            self.assertEqual(processes.below(os.getpid()), [os.getpid()])


class Words(unittest.TestCase):
    def test_what_is_shown_changes_nothing_where_it_is_shown(self) -> None:
        self.assertEqual(
            mistakes.plain(
                "\x1b[2J\x07 \x9b31m \u202e \u2028 \x00 \x7f \ufeff é = ☃ 'it'"
            ),
            "\\x1b[2J\\x07 \\x9b31m \\u202e \\u2028 \\x00 \\x7f \\ufeff é = ☃ 'it'",
        )

    def test_a_match_has_a_time_of_its_own(self) -> None:
        clock = bounds.TimeBound(5, 7)
        self.assertEqual(clock.says("has sent no line for"), "has sent no line for 5 s")
        clock.waited = 3
        self.assertIn(
            "has used up the time of its match, 7 s in all",
            clock.says("has sent no line for"),
        )
        with bounds.TimeBound(0.01, 1) as until, clock as later:
            self.assertGreater(later - until, 3)


class Budgets(unittest.TestCase):
    def test_the_seconds_of_a_team_add_up_over_its_matches(self) -> None:
        """Four matches of six seconds each, and ten seconds in all: the third and
        fourth come too late."""
        limited_job = pool.LimitedJob(
            pool.Budget(10, {"red": 0.0}), lambda _: "red", lambda _: "late"
        )
        self.assertEqual(self.play(range(4), 1, limited_job), [0, 1, "late", "late"])

    def test_megabytes_do_too(self) -> None:
        limited_job = pool.LimitedJob(
            pool.Budget(99, {"red": 0.0}, 5, {"red": 1.0}),
            lambda _: "red",
            lambda _: "late",
        )
        self.assertEqual(self.play(range(4), 1, limited_job), [0, 1, 2, "late"])
        self.assertIn("have taken the 5 MB of disk", limited_job.budget.says("red"))

    def test_a_team_whose_time_is_up_stops_no_other(self) -> None:
        """The matches of all teams are played by the same processes, and come in their
        order."""
        teams = "red", "blue"
        limited_job = pool.LimitedJob(
            pool.Budget(10, dict.fromkeys(teams, 0.0)),
            lambda it: teams[it % 2 and it > 5],
            lambda it: f"late {it}",
        )
        self.assertEqual(
            self.play(range(10), 3, limited_job),
            [0, 1, 2, "late 3", "late 4", "late 5", "late 6", 7, "late 8", 9],
        )

    def play(
        self, matches: Any, workers: int, limited_job: pool.LimitedJob
    ) -> List[Any]:
        """The results of matches, each of which takes six seconds and two megabytes, by
        threads."""
        job: Any = mock.Mock(play=lambda match: pool.TimedResult(match, 6.0, 2 << 20))
        with concurrent.futures.ThreadPoolExecutor(workers) as executor:
            return [
                result.result
                for result in pool.MatchQueue(job, matches, limited_job).results(
                    executor, workers
                )
            ]
