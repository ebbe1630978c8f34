"""Steps of the hall's machine in the database are those of its table."""
import contextlib
import datetime
import itertools
import shutil
import time
from typing import Any, Iterator, List
from unittest import mock

from arena_lab.hall import machine
from arena_lab.hall.machine import (
    ACTIVE,
    CLAIM,
    FINISH,
    HELD,
    LOST,
    RUNNING,
    WAITING,
)
from tests.support import halls
from tests.support.job_states import EVENTS, STATES, JobState, after

halls.started_hall()

from django.conf import settings as django_settings  # noqa: E402
from django.core.management import call_command  # noqa: E402
from django.db import connection, models  # noqa: E402
from django.test import TestCase  # noqa: E402
from django.utils import timezone  # noqa: E402

from arena_lab.hall import children, shares, worker  # noqa: E402
from arena_lab.hall.attempts import asking, attempt_work  # noqa: E402
from arena_lab.hall.attempts.models import Attempt, Worker  # noqa: E402
from arena_lab.hall.handins import grading_work  # noqa: E402
from arena_lab.hall.handins.models import Grading, HandIn  # noqa: E402
from arena_lab.hall import work_steps  # noqa: E402
from arena_lab.hall.work_steps import Watch, claim_work, lose, step  # noqa: E402
from arena_lab.hall.teams.models import Entry, Team  # noqa: E402


def at(now: float) -> Any:
    """A clock that stands."""
    return mock.Mock(monotonic=lambda: now)


def after_seconds(seconds: float, since: float = time.monotonic()) -> Any:
    """A clock that stands so many seconds after these tests began."""
    return at(since + seconds)


@contextlib.contextmanager
def runs(program: Any) -> Iterator[None]:
    """Another program in the place of `grade`, while the block goes on."""
    with mock.patch.object(children.subprocess, "Popen", program), mock.patch.object(
        children.sandboxes, "remove", shutil.rmtree
    ):
        yield


def of(team: str) -> Any:
    return Team.objects.get(name=team)


def attempt(team: str = "amber", **args: Any) -> Any:
    return Attempt.objects.create(team=of(team), network="ring of 5", **args)


class Steps(TestCase):
    def test_each_step_is_that_of_the_table(self) -> None:
        """Whatever state work is in, whoever acts: the database does what the table
        says, and else nothing."""
        work = attempt()
        count = 0
        for state, event in itertools.product(STATES, EVENTS):
            holder = "one" if state in ACTIVE else ""
            for actor in ("one", "two", ""):
                with self.subTest(state=state, event=event, actor=actor):
                    Attempt.objects.filter(pk=work.pk).update(
                        state=state, holder=holder
                    )
                    before = JobState(state, holder)
                    expectation = after(before, event, actor)
                    self.assertEqual(step(work, event, actor), expectation is not None)
                    work.refresh_from_db()
                    self.assertEqual(
                        JobState(work.state, work.holder), expectation or before
                    )
                    count += 1
        self.assertGreater(count, 100)

    def test_one_of_two_workers_claims(self) -> None:
        first = attempt()
        second = None
        second = Attempt.objects.get(pk=first.pk)
        self.assertTrue(claim_work(first))
        self.assertIsNone(claim_work(second))

    def test_work_is_lost_once_its_worker_is_silent_and_not_before(self) -> None:
        """However the clock of the machine is set meanwhile."""
        work = attempt()
        holder = str(claim_work(work))
        step(work, machine.BEGIN, holder)
        watch = Watch(Attempt)
        for seconds, event, expectation in (
            (0.0, "", RUNNING),
            (0.9, machine.RENEW, RUNNING),
            (1.8, "", RUNNING),
            (2.9, "", WAITING),
        ):
            day = timezone.now() + datetime.timedelta(days=1)
            with mock.patch.object(
                work_steps, "time", after_seconds(seconds * work_steps.LEASE)
            ):
                with mock.patch.object(timezone, "now", lambda: day):
                    self.assertEqual(watch.look(), {work.pk})
            work.refresh_from_db()
            self.assertEqual(work.state, expectation)
            self.assertTrue(not event or step(work, event, holder))
        # one that comes back too late
        self.assertFalse(step(work, FINISH, holder))

    def test_work_is_begun_again_after_pauses_that_grow_without_end(self) -> None:
        """And the teacher is told once."""
        work = attempt()
        watch = Watch(Attempt)
        watch.look()
        pauses = [work_steps.pause(faults) for faults in (0, 1, 2, 3, 4, 9, 99)]
        self.assertEqual(
            pauses, [0, 1, 4, 16, 64, work_steps.LONGEST, work_steps.LONGEST]
        )
        start = time.monotonic()
        for faults in range(1, 6):
            holder = str(claim_work(work))
            step(work, machine.BEGIN, holder)
            lose(work, models.Q(holder=holder), "no room")
            self.assertEqual((work.state, work.fault), (WAITING, "no room"))
            for seconds in (0.0, 0.9, 1.1):
                now = start + seconds * work_steps.pause(faults)
                with mock.patch.object(work_steps, "time", at(now)):
                    rests = watch.look()
                self.assertEqual(rests, {work.pk} if seconds < 1 else set())
            start = now
            # what waits when a worker begins has waited for a start
            self.assertEqual(Watch(Attempt).look(), set())
            self.assertEqual(worker.due_attempts(9, {work.pk}), [])
        message = Entry.objects.filter(what__contains=f"Attempt {work.pk}")
        self.assertEqual(message.count(), 1)

    def test_a_worker_that_is_told_to_end_claims_nothing(self) -> None:
        """This includes a worker that was asked to end while it waited for its turn."""
        attempt()
        self.addCleanup(work_steps.STOP_EVENT.clear)
        work_steps.STOP_EVENT.set()
        self.assertEqual(worker.claim(worker.watches()), [])
        work_steps.STOP_EVENT.clear()
        self.assertEqual(len(worker.claim(worker.watches())), 1)

    def test_a_worker_whose_work_was_given_to_another_plays_nothing(self) -> None:
        work = attempt()
        claim_work(work)
        attempt_work.play(work.pk, "another")
        work.refresh_from_db()
        self.assertEqual((work.state, work.runs), (HELD, 0))

    def test_a_worker_that_hears_late_of_its_step_has_not_taken_it(self) -> None:
        """Its lease ran out between the step and the look at the row, which another
        worker has begun meanwhile."""
        work = attempt()
        holder = str(claim_work(work))
        refresh = Attempt.refresh_from_db

        def late(row: Any) -> None:
            Attempt.objects.filter(pk=work.pk).update(holder="two", runs=2)
            refresh(row)

        with mock.patch.object(Attempt, "refresh_from_db", late):
            self.assertFalse(step(work, machine.BEGIN, holder))

    def test_a_grading_that_comes_back_late_leaves_the_files_of_the_newer_one(
        self,
    ) -> None:
        """A worker sleeps before it prepares, while it grades, or before it notes what
        came; another grades meanwhile, and is over or not."""
        for where in ("prepare", "run", "finish"):
            with self.subTest(where):
                hand_in = HandIn.objects.create(
                    team=of("amber"), name="a", size=1, files=1, digest=""
                )
                (hand_in.folder / "files").mkdir(parents=True)
                self.addCleanup(shutil.rmtree, hand_in.folder, True)
                work = Grading.objects.create(hand_in=hand_in)
                before = getattr(grading_work, where)

                def slept(*args: Any) -> Any:
                    with mock.patch.object(grading_work, where, before):
                        lose(Grading.objects.get(pk=work.pk), models.Q(), "silent")
                        self.grade(work.pk, 7)
                        return before(*args)

                with mock.patch.object(grading_work, where, slept):
                    self.grade(work.pk, 1)
                work.refresh_from_db()
                self.assertEqual(
                    (work.state, work.runs, work.moves), (machine.OVER, 2, 7)
                )
                self.assertEqual(
                    grading_work.rows_of(work.folder / grading_work.OUT, "amber")[0][
                        "moves"
                    ],
                    7,
                )
                self.assertEqual(
                    [
                        path.name
                        for path in hand_in.folder.iterdir()
                        if path.name != "files"
                    ],
                    ["public"],
                )

    def grade(self, number: int, moves: int) -> None:
        """Grades, as if all matches had taken these moves."""

        def program(words: Any, cwd: Any, **args: Any) -> Any:
            (cwd / grading_work.OUT).mkdir()
            (cwd / grading_work.OUT / "runs.csv").write_text(
                f"team,network,outcome,fault,moves,lost,run\namber,ring:5,solved,,{moves},0,0\n"
            )
            return mock.Mock(returncode=0, poll=mock.Mock(return_value=0))

        work = Grading.objects.get(pk=number)
        with runs(program):
            grading_work.grade(number, str(claim_work(work)))

    def test_a_network_that_is_gone_is_told(self) -> None:
        work = Attempt.objects.create(team=of("amber"), network="gone")
        attempt_work.play(work.pk, str(claim_work(work)))
        work.refresh_from_db()
        self.assertEqual(work.state, LOST)
        self.assertIn("no network gone any more", work.fault)

    def test_what_fails_by_itself_is_not_begun_again(self) -> None:
        """And what `grade` itself fails in is a fault of the machine, whatever it is."""
        for status, expectation in (
            (1, WAITING),
            (2, WAITING),
            (-9, WAITING),
            (0, LOST),
        ):
            work = Grading.objects.create(
                hand_in=HandIn.objects.create(
                    team=of("amber"), name="a", size=1, files=1, digest=""
                )
            )
            (work.hand_in.folder / "files").mkdir(parents=True)
            self.addCleanup(shutil.rmtree, work.hand_in.folder, True)
            conditions = django_settings.HALL.hand_ins._replace(
                **({} if status else {"networks": []})
            )
            hall = django_settings.HALL._replace(hand_ins=conditions)
            child = mock.Mock(returncode=status, poll=lambda: status)
            with runs(lambda *_, **__: child), mock.patch.object(
                django_settings, "HALL", hall
            ):
                grading_work.grade(work.pk, str(claim_work(work)))
            work.refresh_from_db()
            self.assertEqual((work.state, work.runs), (expectation, 1))
            self.assertEqual(
                [path.name for path in work.hand_in.folder.iterdir()], ["files"]
            )


class Tables(TestCase):
    def test_migrations_make_the_tables_that_the_hall_has(self) -> None:
        names = ("teams", "attempts", "handins", "standings")
        call_command(
            "makemigrations", *names, check_changes=True, dry_run=True, verbosity=0
        )


class Queues(TestCase):
    def test_a_team_with_many_attempts_waits_for_others(self) -> None:
        many = [attempt() for _ in range(5)]
        first = attempt("birch")
        two = attempt("cedar")
        order = [work.pk for work in worker.due_attempts(64)]
        self.assertEqual(order[:3], [many[0].pk, first.pk, two.pk])
        self.assertEqual(len(worker.due_attempts(2)), 2)

    def test_as_many_matches_run_as_the_course_says(self) -> None:
        step(attempt(), CLAIM, "one")
        attempt("birch")
        rooms = [shares.share_of("two").room(Attempt, limit) for limit in (0, 1, 2)]
        self.assertEqual(rooms, [0, 0, 1])
        self.assertEqual([len(worker.due_attempts(room)) for room in (0, 1)], [0, 1])

    def test_hand_ins_are_graded_one_of_a_team_at_a_time(self) -> None:
        def hand_in(team: str) -> Any:
            hand_in = HandIn.objects.create(
                team=of(team), name="a", size=1, files=1, digest=""
            )
            return Grading.objects.create(hand_in=hand_in)

        first = hand_in("amber")
        second = hand_in("amber")
        hand = hand_in("birch")
        self.assertEqual([it.pk for it in grading_work.due(9)], [first.pk, hand.pk])
        self.assertEqual([it.pk for it in grading_work.due(1)], [first.pk])
        Grading.objects.filter(pk=first.pk).update(state=RUNNING, begun=timezone.now())
        self.assertEqual(
            [[it.pk for it in grading_work.due(room)] for room in (0, 1)],
            [[], [hand.pk]],
        )
        Grading.objects.filter(pk=first.pk).update(
            state=machine.OVER, ended=timezone.now()
        )
        # birch was never graded yet, and what hangs waits for what does not
        self.assertEqual([it.pk for it in grading_work.due(9)], [hand.pk, second.pk])
        past = timezone.now() - datetime.timedelta(minutes=3)
        Grading.objects.create(
            hand_in=hand.hand_in,
            is_secret=True,
            state=machine.OVER,
            begun=past,
            ended=timezone.now(),
        )
        self.assertEqual([it.pk for it in grading_work.due(9)], [second.pk, hand.pk])

    def test_workers_that_are_alive_share_what_is_due(self) -> None:
        """A worker of another machine gets its part, and that of one that is silent."""
        hall = django_settings.HALL
        hall = hall._replace(limits=hall.limits._replace(matches=4, gradings=4))
        works: List[Any] = [attempt(name) for name in ("amber", "birch") * 4]
        for name in ("amber", "birch", "cedar"):
            hand_in = HandIn.objects.create(
                team=of(name), name="a", size=1, files=1, digest=""
            )
            works.append(Grading.objects.create(hand_in=hand_in))
        shares.announce("one")
        shares.announce("two")

        def claim_count(name: str) -> Any:
            jobs = worker.claim(worker.watches(), name)
            kinds = [type(work) for (_, work), _ in jobs]
            return kinds.count(Attempt), kinds.count(Grading)

        with mock.patch.object(django_settings, "HALL", hall):
            self.assertEqual([claim_count("one") for _ in range(2)], [(2, 2), (0, 0)])
            self.assertEqual(claim_count("two"), (2, 1))
            self.assertEqual(claim_count("two"), (0, 0))
            holders = Attempt.objects.filter(holder__startswith="two")
            holders.update(state=machine.OVER, holder="")
            self.assertEqual(claim_count("one"), (0, 0))
            silent = timezone.now() - datetime.timedelta(seconds=2 * work_steps.LEASE)
            Worker.objects.filter(name="two").update(contact=silent)
            self.assertEqual(claim_count("one"), (2, 0))
            shares.announce("two")
            Attempt.objects.update(state=machine.OVER, holder="")
            shares.leave("one")
            Attempt.objects.filter(pk__in=[work.pk for work in works[:4]]).update(
                state=WAITING
            )
            self.assertEqual(claim_count("two"), (4, 0))

    def test_a_look_beside_a_full_queue_costs_little(self) -> None:
        """Each worker looks four times a second, which must leave the processors to
        gradings."""

        def grade(count: int, **columns: Any) -> None:
            hand_in = HandIn(team=of("cedar"), name="a", size=1, files=1, digest="")
            hand_ins = HandIn.objects.bulk_create([hand_in] * count)
            first = HandIn.objects.order_by("-pk")[count - 1].pk
            Grading.objects.bulk_create(
                Grading(hand_in_id=first + number, **columns)
                for number in range(len(hand_ins))
            )

        grade(django_settings.HALL.limits.gradings, state=RUNNING, holder="one")
        watches = worker.watches()
        worker.claim(watches)
        cost = self.look_cost(watches)
        grade(1_000)
        self.assertLess(self.look_cost(watches), cost + 100)

    def look_cost(self, watches: Any) -> int:
        """Counts the hundreds of instructions of SQLite for a look of a worker that has
        no room for more gradings."""
        instructions: List[None] = []
        handle = connection.connection.set_progress_handler
        handle(lambda: instructions.append(None), 100)
        try:
            self.assertEqual(worker.claim(watches), [])
        finally:
            handle(None, 0)
        return len(instructions)

    def test_taking_back_what_waits_and_closing_what_runs(self) -> None:
        work = attempt()
        self.assertTrue(asking.close(work))
        self.assertFalse(asking.close(work))
        running = attempt()
        step(running, CLAIM, "one")
        step(running, machine.BEGIN, "one")
        self.assertTrue(asking.close(running))
        self.assertTrue(
            Attempt.objects.filter(pk=running.pk, closing=True, state=RUNNING).exists()
        )
        self.assertFalse(step(running, machine.CANCEL, "", models.Q(state=WAITING)))
