"""What the tests of a hall's pages share: a hall without servers, its teams with their
tokens, and matches as they stand. Django begins when this is loaded."""
import json
import shutil
from typing import Any
from unittest import mock

from arena_lab.hall import machine
from arena_lab.rules.model import Match as Played, Setup, spell
from arena_lab.rules.networks import ring
from tests.support import halls

PLACE = halls.started_hall()

from django.conf import settings  # noqa: E402
from django.core.files.uploadedfile import SimpleUploadedFile  # noqa: E402
from django.test import Client, TestCase  # noqa: E402
from django.utils import timezone, translation  # noqa: E402

from arena_lab.hall import keys  # noqa: E402
from arena_lab.hall.attempts import seen  # noqa: E402
from arena_lab.hall.attempts.models import Attempt, Match  # noqa: E402
from arena_lab.hall.handins import taking, views  # noqa: E402
from arena_lab.hall.handins.models import Contest, Grading, HandIn  # noqa: E402
from arena_lab.hall.teams import guards  # noqa: E402
from arena_lab.hall.teams.models import Team  # noqa: E402

PASSWORD = "a long password"
TEXT = "</script><script>alert(2)</script>"


class Hall(TestCase):
    """A hall with three teams and their tokens."""

    def setUp(self) -> None:
        for buckets in (guards.requests, guards.attempts, taking.submissions):
            buckets.clear()
        # numbers of attempts and hand-ins come again in each test
        seen.part.cache_clear()
        views.sources.cache_clear()
        self.tokens = {team.name: team.new_token() for team in Team.objects.all()}
        keys.set_password(PASSWORD)
        self.addCleanup(shutil.rmtree, PLACE.folder / "attempts", True)
        self.addCleanup(shutil.rmtree, PLACE.folder / "hand-ins", True)
        self.addCleanup(translation.activate, "en")

    def team(self, name: str) -> Team:
        return Team.objects.get(name=name)

    def client_of(self, name: str) -> Client:
        client = Client()
        self.assertEqual(
            client.post("/login", {"token": self.tokens[name]}).status_code, 302
        )
        return client

    def teacher(self) -> Client:
        client = Client()
        self.assertTrue(client.login(username="teacher", password=PASSWORD))
        return client

    def rest(
        self, how: str, path: str, name: str = "amber", body: Any = None, **args: Any
    ) -> Any:
        ask = getattr(Client(), how)
        extra = (
            {}
            if how == "get"
            else {"data": json.dumps(body), "content_type": "application/json"}
        )
        header = {"HTTP_AUTHORIZATION": f"Bearer {self.tokens[name]}"} if name else {}
        return ask(path, **extra, **header, **args)

    def hand_in(self, payload: bytes, name: str = "amber", **fields: Any) -> Any:
        """Hands in a file for the course, or for a contest by number; returns the
        response."""
        return Client().post(
            "/api/hand-ins",
            {"file": SimpleUploadedFile("agent.py", payload), **fields},
            HTTP_AUTHORIZATION=f"Bearer {self.tokens[name]}",
        )

    def running(self, match: Any, name: str = "amber") -> Attempt:
        """An attempt whose match goes on like this one."""
        attempt = Attempt.objects.create(
            team=self.team(name),
            network="ring of 5",
            runs=1,
            state=machine.RUNNING,
            holder="one",
            begun=timezone.now(),
        )
        new_match = Match.objects.create(
            attempt=attempt,
            number=0,
            run=1,
            host="127.0.0.1",
            port=4100,
            keys=["ka", "kb"],
        )
        new_match.part.parent.mkdir(parents=True)
        self.write(new_match, match)
        return attempt

    def write(self, result: Match, match: Any) -> None:
        result.part.write_text(
            "".join(spell(line) + "\n" for line in [match.head(), *match.log])
        )

    def over(self, match: Any, name: str = "amber") -> Attempt:
        """An attempt that is over."""
        attempt = self.running(match, name)
        match.close()
        result = attempt.matches.get()
        result.replay.write_text(match.replay())
        result.page.write_text("<script>watch()</script>")
        Match.objects.filter(pk=result.pk).update(outcome="solved", moves=7, lost=1)
        Attempt.objects.filter(pk=attempt.pk).update(
            state=machine.OVER, ended=timezone.now(), holder=""
        )
        return Attempt.objects.get(pk=attempt.pk)


def hall_with(**args: Any) -> Any:
    """A hall whose file says this, while the block goes on."""
    return mock.patch.object(settings, "HALL", settings.HALL._replace(**args))


def stopped_clock() -> Any:
    """No time passes, in which one has more requests."""
    return mock.patch.object(guards, "time", mock.Mock(monotonic=lambda: 1_000.0))


def make_grading(
    name: str,
    solved_count: int = 1,
    moves: int = 7,
    is_secret: bool = False,
    contest: Any = None,
) -> Any:
    """A grading of a hand-in that is over: how many of two matches on the ring it
    solved."""
    word = "ring:6" if is_secret else "ring:5"
    team = Team.objects.get(name=name)
    hand_in = HandIn.objects.create(
        team=team, contest=contest, name="a", size=1, files=1, digest=""
    )
    return Grading.objects.create(
        hand_in=hand_in,
        is_secret=is_secret,
        state=machine.OVER,
        solved=solved_count,
        matches=2,
        moves=moves,
        ended=timezone.now(),
        networks={word: [solved_count, 2]},
    )


def contest_of(**args: Any) -> Contest:
    """A contest that goes on."""
    now = timezone.now()
    hour = timezone.timedelta(hours=1)
    return Contest.objects.create(
        **{
            "name": "finale",
            "networks": ["ring of 5", "torus with a map"],
            "start": now - hour,
            "end": now + hour,
            **args,
        }
    )


def play_match(hole: int = 3) -> Any:
    """A match in which an agent has written on a whiteboard."""
    match = Played(Setup(5, ring(5).links, 0, [hole], 2, 1000, 4096))
    match.reply_to(0, {"do": "enter"})
    match.reply_to(0, {"do": "write", "expect": "", "put": TEXT})
    return match
