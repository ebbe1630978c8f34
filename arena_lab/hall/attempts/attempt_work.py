"""Plays an attempt: a worker starts the server of its match, and notes what came of it
once it is closed.

Nothing of a match is noted in the database before it is over, but where its server
listens and its keys. If the worker is killed its server ends with it. The attempt is
then played again, with another black hole and other keys, unless the replay was whole
already.
"""
import contextlib
import os
import pathlib
import shutil
import time

from django.conf import settings
from django.db import transaction

from arena_lab.hall import machine, packing
from arena_lab.hall.attempts import match_draws, servers
from arena_lab.hall.attempts.models import ABSENT, CUT, Attempt, Match, Pages
from arena_lab.hall.attempts.servers import Server, Times
from arena_lab.hall.work_steps import Lease, WorkLostError, begin_work, step
from arena_lab.pages import match_page
from arena_lab.rules.engines import program_verdict
from arena_lab.support.faults import ArenaError

# of a worker on another machine than the pages: by which name teams reach it
HOST = "ARENA_HALL_HOST"


def play(number: int, holder: str) -> None:
    """Plays the attempt of this number, if this holder holds it."""
    with begin_work(Attempt, number, holder, "team") as attempt:
        if attempt is not None:
            Playing(attempt, holder).play()


class Playing:
    """An attempt that is played by one worker."""

    def __init__(self, attempt: Attempt, holder: str) -> None:
        self._attempt = attempt
        self._holder = holder
        self._folder = attempt.folder / f"run{attempt.runs}" / "match0"
        self._net = settings.HALL.nets.get(attempt.network)
        hall = settings.HALL
        self._times = Times(hall.turns, hall.pause, hall.gather * 1000)
        self._lease = Lease(attempt, holder)
        self._came = False

    def play(self) -> None:
        """Plays the match, unless an earlier run has made its replay whole, and notes
        what came of it."""
        if self._net is None:
            raise ArenaError(
                f"the hall has no network {self._attempt.network} any more"
            )
        if not any(match.replay.exists() for match in self._attempt.matches.all()):
            # of an earlier run, which came to nothing
            shutil.rmtree(self._attempt.folder, ignore_errors=True)
            draw = match_draws.draw_match(self._net, self._attempt.team.name)
            hall = settings.HALL
            match_draws.write(draw, self._folder)
            server = servers.start(
                settings.PLACE.program,
                self._folder,
                self._times,
                (hall.address, hall.ports),
            )
            try:
                self._wait(server, self._told(draw, server))
            finally:
                server.kill()
        self._finish()

    def _told(self, draw: match_draws.Draw, server: Server) -> Match:
        """Notes where the server listens, so that the team may begin."""
        facts = {
            "run": self._attempt.runs,
            "host": os.environ.get(HOST, settings.HALL.host),
            "port": server.port,
            "keys": draw.fixture.keys,
            "map": draw.map,
        }
        with transaction.atomic():
            self._lease.renew()
            match, _ = Match.objects.update_or_create(
                attempt=self._attempt, number=0, defaults=facts
            )
        return match

    def _wait(self, server: Server, match: Match) -> None:
        """Waits until the server has ended."""
        began = time.monotonic()
        is_closing = False
        while not server.has_ended():
            self._lease.wait()
            if not is_closing and (
                self._attempt.closing or self._is_late(time.monotonic() - began, match)
            ):
                is_closing = True
                server.close()

    def _is_late(self, seconds: float, match: Match) -> bool:
        """Returns whether the match is to be closed: it takes too long, or nobody has
        come."""
        waits_too_long = seconds * 1000 > self._times.gather + 1000
        if waits_too_long and not self._came:
            self._came = has_entered(match.part) or has_entered(match.replay)
        return seconds > self._times.seconds() or waits_too_long and not self._came

    def _finish(self) -> None:
        """Stores the verdicts and queues the job for pages, in one transaction."""
        verdicts = {
            match: program_verdict(settings.PLACE.program, match.replay)
            for match in self._attempt.matches.all()
        }
        with transaction.atomic():
            if not step(
                self._attempt,
                machine.FINISH,
                self._holder,
                size=packing.size_of(self._attempt.folder),
            ):
                raise WorkLostError
            for match, verdict in verdicts.items():
                outcome = verdict.outcome
                if not has_entered(match.replay):
                    outcome = CUT if self._attempt.faults else ABSENT
                Match.objects.filter(pk=match.pk).update(
                    outcome=outcome, moves=verdict.moves, lost=verdict.lost
                )
            Pages.objects.get_or_create(attempt=self._attempt)


def has_entered(replay: pathlib.Path) -> bool:
    """Returns whether an agent has entered a match."""
    with contextlib.suppress(FileNotFoundError), replay.open(
        encoding="utf-8", newline="\n"
    ) as lines:
        return any('"do":"enter"' in line for line in lines)
    return False


def make_pages(number: int, holder: str) -> None:
    """Writes the pages of a finished attempt."""
    with begin_work(Pages, number, holder, "attempt") as work:
        for match in work.attempt.matches.all() if work else ():
            if match.replay.exists():
                title = f"{work.attempt.network}, {work.attempt_id}.{match.number}"
                match_page.write_page(
                    settings.PLACE.program, match.replay, match.page, None, title
                )
        if work:
            Attempt.objects.filter(pk=work.attempt_id).update(
                size=packing.pack(work.attempt.folder)
            )
            step(work, machine.FINISH, holder)


def forget(attempt: Attempt) -> None:
    """Removes the files of an attempt, and keeps what came of it."""
    shutil.rmtree(attempt.folder, ignore_errors=True)
    Attempt.objects.filter(pk=attempt.pk).update(size=0)
