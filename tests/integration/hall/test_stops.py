"""Two workers of a hall that are stopped, killed and started between any two calls of
the database: no grading is lost, and none is begun by a worker that was told to end."""
import datetime
import shutil
import unittest
from typing import Any

from arena_lab.hall import machine
from tests.integration.hall.stepped_workers import Workers

from django.utils import timezone
from hypothesis import HealthCheck, settings, strategies
from hypothesis.stateful import RuleBasedStateMachine, invariant, rule
from hypothesis.stateful import run_state_machine_as_test

from arena_lab.hall.handins.models import Grading, HandIn
from arena_lab.hall.work_steps import LEASE
from arena_lab.hall.teams.models import Team

NUMBERS = strategies.sampled_from((0, 1))
# how many times all threads go on until work is over that nothing disturbs
ROUNDS = 2_000


class Stops(RuleBasedStateMachine):
    """A grading by the secret draw, two workers, and whoever stops and kills them."""

    def __init__(self) -> None:
        super().__init__()
        past = timezone.now() - datetime.timedelta(days=1)
        hand_in = HandIn.objects.create(
            team=Team.objects.get(name="amber"), at=past, name="a", size=1, files=1
        )
        (hand_in.folder / "files").mkdir(parents=True)
        self.hand_in = hand_in
        self.work = Grading.objects.create(hand_in=hand_in, is_secret=True)
        self.workers = Workers()
        for number in (0, 1):
            self.workers.start(number)

    @rule(choice=strategies.integers(0, 7), count=strategies.integers(1, 30))
    def go(self, choice: int, count: int) -> None:
        """One thread goes on by some calls."""
        ready = self.workers.ready()
        chosen = ready[choice % len(ready)] if ready else None
        for _ in range(count):
            if chosen in self.workers.ready():
                chosen.go()

    @rule(number=NUMBERS)
    def start(self, number: int) -> None:
        self.workers.start(number)

    @rule(number=NUMBERS)
    def kill(self, number: int) -> None:
        self.workers.processes[number].kill()

    @rule(number=NUMBERS)
    def stop(self, number: int) -> None:
        self.workers.processes[number].stopped = True

    @rule()
    def stop_all(self) -> None:
        """The hall is told to end."""
        for process in self.workers.processes.values():
            process.stopped = True

    @rule(seconds=strategies.sampled_from((1.0, LEASE / 2, 2 * LEASE)))
    def wait(self, seconds: float) -> None:
        self.workers.clock.now += seconds

    @invariant()
    def nothing_is_lost(self) -> None:
        self.work.refresh_from_db()
        assert self.work.state != machine.LOST, self.work.fault
        assert not self.workers.broken_rules, self.workers.broken_rules

    def teardown(self) -> None:
        """The hall is started again, and nothing disturbs it any more."""
        try:
            for process in self.workers.processes.values():
                process.kill()
            self.workers.start(0)
            for _ in range(ROUNDS):
                self.workers.clock.now += 1
                for thread in self.workers.ready():
                    # an earlier thread of this round may have opened a transaction
                    if thread in self.workers.ready():
                        thread.go()
                self.nothing_is_lost()
                if self.work.state == machine.OVER:
                    break
            assert (self.work.state, self.work.moves) == (machine.OVER, 7)
            remaining = [path.name for path in self.hand_in.folder.iterdir()]
            assert sorted(remaining) == ["files", "secret"], remaining
        finally:
            self.workers.close()
            folder: Any = self.hand_in.folder
            self.hand_in.delete()
            shutil.rmtree(folder, ignore_errors=True)


class Tests(unittest.TestCase):
    def test_no_stop_and_no_kill_loses_a_grading(self) -> None:
        run_state_machine_as_test(
            Stops,
            settings=settings(
                max_examples=40,
                stateful_step_count=30,
                deadline=None,
                derandomize=True,
                database=None,
                suppress_health_check=list(HealthCheck),
            ),
        )
