"""Attacks on a hall that won something once, and win nothing now.

Other files try other attacks: test_steps.py a worker whose lease has run out;
test_pages.py, test_isolation.py and test_hand_ins.py tokens from an IPv6 network, another
team's matches, and a look at the black hole before the close; test_connections.py slow
and many connections; test_nginx.py forged headers behind Caddy and nginx; test_hall.py
and tests/lab/submissions/test_uploads.py paths, SQL, HTML, formulas, and bombs in zips.

Three attacks still win something. Wrong tokens from a team's own address make its
members who have not logged in wait minutes there. The numbers of matches and hand-ins
tell how many all teams have made. How long a hand-in waits tells how long others are
graded, but not whose.
"""
import pathlib
import re
import tempfile
import zipfile
from typing import Any, Dict, List, Tuple
from unittest import mock

from arena_lab.hall import machine
from arena_lab.hall.attempts import seen
from arena_lab.rules.model import Match as Played, Setup
from arena_lab.rules.networks import ring
from tests.integration.hall.hall_pages import (
    PASSWORD,
    PLACE,
    Hall,
    make_grading,
    hall_with,
    play_match,
    stopped_clock,
)
from tests.lab.submissions.test_uploads import zip_of

from django.conf import settings
from django.contrib.auth import get_user_model
from django.core.files.uploadedfile import SimpleUploadedFile
from django.db import OperationalError
from django.test import Client
from django.utils import timezone

from arena_lab.hall import place
from arena_lab.hall.attempts import attempt_work
from arena_lab.hall.attempts.models import Attempt
from arena_lab.hall.handins import taking
from arena_lab.hall.handins.models import Contest, Grading, HandIn
from arena_lab.hall.teams.guards import TRIES
from arena_lab.hall.teams.models import Message, Team
from arena_lab.hall.teams.views import MAX_WAITING
from arena_lab.submissions import uploads
from arena_lab.submissions.submission import SubmissionError

FEW = 30
HOUR = timezone.timedelta(hours=1)


class Requests(Hall):
    """Who wants more requests or more tries than others, or wants a team to have
    none."""

    def setUp(self) -> None:
        super().setUp()
        self.enterContext(hall_with(limits=settings.HALL.limits._replace(requests=FEW)))
        self.enterContext(stopped_clock())

    def test_a_header_that_pages_do_not_read_gives_no_more_requests(self) -> None:
        client = self.client_of("amber")
        results = [
            client.get("/matches", HTTP_AUTHORIZATION=f"Bearer {number}").status_code
            for number in range(3 * FEW)
        ]
        self.assertEqual((results[0], results[-1]), (200, 429))

    def test_a_guess_is_a_try_wherever_it_was_sent_before(self) -> None:
        """A page that a team may see does not make a header right that came with it."""
        client = self.client_of("amber")
        results = []
        for number in range(TRIES + 2):
            guess = {"HTTP_AUTHORIZATION": f"Bearer birch.{number}"}
            client.get("/matches", **guess)
            results.append(Client().get("/api/matches", **guess).status_code)
        self.assertEqual(results, [401] * TRIES + [429] * 2)

    def test_a_token_that_was_replaced_spends_no_requests_of_its_team(self) -> None:
        self.assertEqual(self.rest("get", "/api/matches").status_code, 200)
        page = self.client_of("amber")
        old = self.tokens["amber"]
        self.assertEqual(page.get("/matches").status_code, 200)
        self.tokens["amber"] = Team.objects.get(name="amber").new_token()
        for _ in range(2 * FEW):
            Client().get(
                "/api/matches",
                HTTP_AUTHORIZATION=f"Bearer {old}",
                REMOTE_ADDR="192.0.2.9",
            )
            page.get("/matches", REMOTE_ADDR="192.0.2.9")
        self.assertEqual(self.rest("get", "/api/matches").status_code, 200)


class Passwords(Hall):
    def test_a_stranger_at_the_same_address_keeps_no_teacher_out(self) -> None:
        own = PLACE.secret(place.LOGIN)

        def is_let_in(password: str) -> bool:
            output = {"username": "teacher", "password": password, "next": "/teacher/"}
            return Client().post("/teacher/login/", output).status_code == 302

        for _ in range(TRIES + 1):
            self.assertFalse(is_let_in("wrong password"))
        for password in (PASSWORD, f"{PASSWORD} {own[1:]}", f"wrong {own}", own):
            self.assertFalse(is_let_in(password))
        self.assertTrue(is_let_in(f"{PASSWORD} {own}"))


class HandIns(Hall):
    """Programs that are to break the hall, or to keep it busy."""

    def setUp(self) -> None:
        super().setUp()
        self.enterContext(stopped_clock())

    def test_names_that_no_disk_takes_are_refused(self) -> None:
        for name in ("\U0001f600" * 100, "/".join(["ü" * 100] * 31)):
            hand = self.hand_in(zip_of({name: b"x"}))
            self.assertEqual((hand.status_code, HandIn.objects.count()), (400, 0))
        self.assertEqual(list((PLACE.folder / "hand-ins").iterdir()), [])
        self.assertEqual(self.hand_in(b"print()", "birch").status_code, 201)

    def test_a_fault_of_the_disk_keeps_no_other_hand_in_out(self) -> None:
        """What was written is removed again: the next hand-in has the same number."""

        def full(payload: bytes, name: str, folder: Any) -> None:
            folder.mkdir(parents=True)
            raise OSError(28, "No space left on device", str(folder))

        with mock.patch.object(uploads, "unpack_upload", full):
            hand = self.hand_in(b"print()")
        self.assertEqual((hand.status_code, HandIn.objects.count()), (503, 0))
        self.assertNotIn(str(PLACE.folder), hand.content.decode())
        self.assertEqual(list((PLACE.folder / "hand-ins").iterdir()), [])
        # a process that was killed has left a folder, and its number comes again
        self.assertEqual(self.hand_in(b"print()", "birch").status_code, 201)
        last = HandIn.objects.get()
        (last.folder.with_name(str(last.pk + 1)) / "files").mkdir(parents=True)
        remaining = PLACE.folder / "hand-ins" / "new-1"
        remaining.mkdir()
        temporary = tempfile.mkdtemp(prefix=place.temporary_of(PLACE.folder))
        place.remove_left(PLACE.folder)
        self.assertFalse(remaining.exists() or pathlib.Path(temporary).exists())
        self.assertEqual(self.hand_in(b"print()", "birch").status_code, 201)

    def test_a_zip_with_many_entries_is_refused_before_they_are_read(self) -> None:
        """A list of 8 MB has 180,000 entries, which take seconds."""
        many = zip_of({f"{number}/": b"" for number in range(5_000)})
        with mock.patch.object(
            zipfile, "ZipFile", side_effect=AssertionError("it was read")
        ), self.assertRaisesRegex(SubmissionError, "more than 2000 files"):
            uploads.write_upload(many, "agent.py", PLACE.folder / "hand-ins" / "many")

    def test_nothing_hides_in_a_source_or_a_name(self) -> None:
        source = "if True: # \u202e } \u2066 if is_right\u2069 \u2066 begin\n\tprint('\u200b\x1b[2Jé')\n"
        hand = self.hand_in(zip_of({"\u202eyp.exe": source.encode(), "agent.py": b"x"}))
        page = (
            self.client_of("amber")
            .get(f"/hand-ins/{hand.json()['id']}")
            .content.decode()
        )
        self.assertIn(
            r"if True: # \u202e } \u2066 if is_right\u2069 \u2066 begin", page
        )
        self.assertIn("\n\tprint(&#x27;\\u200b\\x1b[2Jé&#x27;)", page)
        self.assertIn(r"\u202eyp.exe", page)
        self.assertEqual(
            re.findall(
                "[\x00-\x08\x0b-\x1f\u200b-\u200f\u202a-\u202e\u2060-\u2069]", page
            ),
            [],
        )
        client = self.client_of("birch")
        client.post(
            "/hand-ins/take",
            {"file": SimpleUploadedFile("a\0\u202egpj.py", b"print()")},
        )
        self.assertEqual(HandIn.objects.first().name, r"a\x00\u202egpj.py")

    def test_a_link_below_the_results_leads_nowhere(self) -> None:
        self.hand_in(b"print()")
        grading = Grading.objects.get()
        (grading.folder / "out" / "failed").mkdir(parents=True)
        (grading.folder / "out" / "failed" / "amber-0").symlink_to(PLACE.folder)
        Grading.objects.update(state=machine.OVER)
        self.assertTrue((grading.folder / "out/failed/amber-0/key.txt").exists())
        path = f"/hand-ins/{grading.hand_in_id}/result/failed/amber-0/key.txt"
        self.assertEqual(self.client_of("amber").get(path).status_code, 404)

    def test_hand_ins_that_are_refused_are_limited_too(self) -> None:
        results = [
            self.hand_in(zip_of({"../x": b""})).status_code
            for _ in range(taking.A_MINUTE + 1)
        ]
        self.assertEqual(results, [400] * taking.A_MINUTE + [429])
        self.assertEqual(self.hand_in(b"print()", "birch").status_code, 201)


class Looks(Hall):
    """What one learns by looking, and what it costs the hall."""

    def test_a_replay_is_read_once_however_often_it_is_asked_for(self) -> None:
        attempt = self.over(play_match())
        with mock.patch.object(seen, "read_ended", wraps=seen.read_ended) as reader:
            results = [
                self.rest("get", f"/api/matches/{attempt.pk}").json() for _ in range(5)
            ]
        self.assertEqual(reader.call_count, 1)
        self.assertEqual(results[0]["matches"][0]["after"]["holes"], [3])

    def test_a_hidden_team_is_not_seen_by_the_places_of_others(self) -> None:
        make_grading("amber", moves=9)
        make_grading("birch", moves=1)
        before = self.rest("get", "/api/standings").json()["teams"]
        self.assertEqual(
            [(row["team"], row["place"]) for row in before][:2],
            [("birch", 1), ("amber", 2)],
        )
        Team.objects.filter(name="birch").update(hidden=True)
        after = self.rest("get", "/api/standings").json()["teams"]
        self.assertEqual(
            [(row["team"], row["place"]) for row in after][0], ("amber", 1)
        )

    def responses(
        self, clients: Dict[str, Client], paths: List[str]
    ) -> Dict[Tuple[str, str], Any]:
        """Returns the responses to all clients and paths, without CSRF tokens."""
        results = {}
        for name, client in clients.items():
            for path in paths:
                answer = client.get(path)
                body = re.sub(
                    rb'"csrfmiddlewaretoken" value="\w+"', b"", answer.content
                )
                results[name, path] = (
                    answer.status_code,
                    {**answer.headers, "Expires": ""},
                    body,
                )
        return results

    def test_nothing_tells_what_came_of_a_hand_in_after_the_freeze(self) -> None:
        """Whatever the result, responses to other teams, strangers and tutors without
        the permission are equal byte for byte, even if the standings before the freeze
        differ."""
        contest = Contest.objects.create(
            name="finale",
            networks=["ring of 5"],
            start=timezone.now() - HOUR,
            end=timezone.now() + HOUR,
        )
        for name in ("amber", "birch"):
            make_grading(name, 1, 9)
            make_grading(name, 1, 9, contest=contest)
        freeze = timezone.now()
        Contest.objects.update(freeze=freeze)
        late = [
            make_grading("birch"),
            make_grading("birch", contest=contest),
            make_grading("cedar"),
            make_grading("birch", is_secret=True),
        ]
        tutor = Client()
        get_user_model().objects.create_user(
            "tutor", password="another long password", is_staff=True
        )
        self.assertTrue(tutor.login(username="tutor", password="another long password"))
        clients = {
            "amber": self.client_of("amber"),
            "stranger": Client(),
            "tutor": tutor,
            "by token": Client(HTTP_AUTHORIZATION=f"Bearer {self.tokens['amber']}"),
        }
        here = [
            f"contests/{contest.pk}",
            *(f"hand-ins/{it.hand_in_id}" for it in late),
            "hand-ins",
            "matches",
        ]
        paths = [
            "/",
            "/screen",
            f"/contests/{contest.pk}/screen",
            "/messages",
            "/health",
            "/teacher/standings.csv",
            f"/teacher/contests/{contest.pk}.csv",
            f"/hand-ins/{late[0].hand_in_id}/result/",
            "/api/contests",
            "/teacher/",
            "/teacher/handins/grading/",
            "/api/standings",
            *(f"/{it}" for it in here),
            *(f"/api/{it}" for it in here),
        ]
        with hall_with(freeze=freeze, public=True):
            results = []
            for changes in (
                {"solved": 2, "moves": 1},
                {"solved": 0, "moves": 99, "lost": 3},
                {"state": machine.LOST},
                {"state": machine.RUNNING},
            ):
                Grading.objects.filter(pk__in=[it.pk for it in late]).update(**changes)
                results.append(self.responses(clients, paths))
            teacher = self.teacher().get("/").content
        for first, rest in results[0].items():
            self.assertEqual([result[first] for result in results], [rest] * 4, first)
        self.assertEqual(results[0]["amber", "/"][0], 200)
        self.assertIn(b"Frozen since", results[0]["stranger", "/"][2])
        self.assertNotIn(b"Frozen since", teacher)

    def test_a_full_disk_is_told(self) -> None:
        """Whatever is asked is answered by a sentence, which names no path of the
        hall."""
        full = OperationalError("database or disk is full"), OSError(
            28, "No space left on device", str(PLACE.folder)
        )
        for fault in full:
            client = Client(raise_request_exception=False)
            with mock.patch(
                "arena_lab.hall.teams.logins.team_of_token", side_effect=fault
            ):
                response = client.post("/login", {"token": self.tokens["amber"]})
            self.assertEqual(response.status_code, 503)
            self.assertIn("cannot write this now", response.json()["error"])
            token = {"HTTP_AUTHORIZATION": f"Bearer {self.tokens['amber']}"}
            with mock.patch("arena_lab.hall.attempts.asking.ask", side_effect=fault):
                response = client.post(
                    "/api/matches",
                    {"network": "ring of 5"},
                    "application/json",
                    **token,
                )
            self.assertEqual(
                (response.status_code, list(response.json())), (503, ["error"])
            )

    def test_who_was_cut_off_by_the_machine_is_not_absent(self) -> None:
        """Agents had entered, the disk was full, and nobody came to the next run."""
        for faults, expectation in ((0, "absent"), (1, "cut")):
            match = Played(Setup(5, ring(5).links, 0, [3], 2, 1000, 4096))
            attempt = self.running(match)
            match.close()
            attempt.matches.get().replay.write_text(match.replay())
            Attempt.objects.filter(pk=attempt.pk).update(faults=faults)
            attempt_work.Playing(Attempt.objects.get(pk=attempt.pk), "one").play()
            reply = self.rest("get", f"/api/matches/{attempt.pk}").json()
            self.assertEqual(reply["verdicts"][0]["outcome"], expectation)

    def test_a_fault_of_the_machine_tells_no_path(self) -> None:
        """A team is told that its match is played again; where its files are, the log
        says."""
        from arena_lab.hall.work_steps import claim_work

        attempt = Attempt.objects.create(team=self.team("amber"), network="ring of 5")
        with mock.patch.object(
            attempt_work.Playing,
            "play",
            side_effect=OSError(28, "No space left", str(PLACE.folder)),
        ):
            attempt_work.play(attempt.pk, str(claim_work(attempt)))
        reply = self.rest("get", f"/api/matches/{attempt.pk}").json()
        self.assertEqual(reply["state"], machine.WAITING)
        self.assertIn("it is done again", reply["fault"])
        self.assertNotIn(str(PLACE.folder), reply["fault"])
        self.assertEqual(Grading.objects.count(), 0)


class Questions(Hall):
    """Who asks much, or nothing."""

    def test_a_question_without_fields_is_refused_however_many_wait(self) -> None:
        client = self.client_of("amber")
        for expectation in (400, 429):
            self.assertEqual(client.post("/messages", {}).status_code, expectation)
            Message.objects.bulk_create(
                [
                    Message(team=self.team("amber"), text="why?")
                    for _ in range(MAX_WAITING)
                ]
            )

    def test_texts_of_teams_are_texts_on_each_page(self) -> None:
        text = '"><script>alert(4)</script>'
        self.client_of("birch").post("/messages", {"text": text})
        message = Message.objects.get()
        Message.objects.update(answer=text, is_public=True)
        Message.objects.create(text=text)
        page = f"/teacher/teams/message/{message.pk}"
        for client, path in (
            (self.client_of("amber"), "/messages"),
            (self.teacher(), "/teacher/teams/message/"),
            (self.teacher(), f"{page}/change/"),
            (self.teacher(), f"{page}/delete/"),
            (self.teacher(), f"{page}/history/"),
        ):
            content = client.get(path).content
            self.assertNotIn(b"<script>alert", content, path)
            self.assertIn(b"&lt;script&gt;alert", content, path)
