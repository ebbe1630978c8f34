"""The pages of a hall, as a team, another team and a stranger ask for them."""
import re
from typing import Optional
from unittest import mock

from tests.integration.hall.hall_pages import (
    PASSWORD,
    Hall,
    hall_with,
    play_match,
    stopped_clock,
)

from django.conf import settings
from django.template import engines
from django.test import Client, RequestFactory
from rest_framework.parsers import JSONParser

from arena_lab.hall.attempts.models import Attempt
from arena_lab.hall.teams import guards, logins
from arena_lab.hall.teams.models import Entry, Switch, Team


class Frame(Hall):
    def test_the_frame_leaves_a_page_the_names_that_it_gives(self) -> None:
        text = (
            '{% extends "base.html" %}'
            "{% block main %}{{ language }} {{ languages }}{% endblock %}"
        )
        page = engines["django"].from_string(text)
        message = page.render({"language": "python", "languages": "all kits"})
        self.assertIn("python all kits", message)


class Logins(Hall):
    def test_a_team_logs_in_by_its_token_and_out_again(self) -> None:
        client = self.client_of("amber")
        self.assertContains(client.get("/matches"), "ring of 5")
        client.post("/logout")
        self.assertEqual(client.get("/matches").status_code, 302)

    def test_a_team_is_told_what_hand_ins_are_graded_by(self) -> None:
        client = self.client_of("amber")
        self.assertContains(client.get("/hand-ins"), "/hand-ins/conditions.toml")
        reply = client.get("/hand-ins/conditions.toml").content.decode()
        self.assertIn('networks = ["ring:5"]\n', reply)
        self.assertIn('schedulers = ["fair"]\n', reply)
        # neither the networks of the secret draw nor a team is there
        self.assertNotIn("ring:6", reply)
        self.assertNotIn("[[team]]", reply)
        self.assertEqual(client.get("/hand-ins/conditions-99.toml").status_code, 404)
        self.assertEqual(Client().get("/hand-ins/conditions.toml").status_code, 302)

    def test_wrong_tokens_are_refused_and_soon_not_tried_any_more(self) -> None:
        client = Client()
        answers = [
            client.post("/login", {"token": f"amber.{number}"}).status_code
            for number in range(15)
        ]
        self.assertEqual(answers[:10], [403] * 10)
        self.assertEqual(answers[-1], 429)
        # the right one too, from there; another team behind the same address is not
        # kept out
        self.assertEqual(
            client.post("/login", {"token": self.tokens["amber"]}).status_code, 429
        )
        self.assertEqual(
            client.post("/login", {"token": self.tokens["birch"]}).status_code, 302
        )

    def test_one_who_tries_tokens_keeps_no_other_of_the_class_out(self) -> None:
        """All tries come from one address, as from a lecture hall."""
        answers = [
            Client()
            .get("/api/matches", HTTP_AUTHORIZATION=f"Bearer x{number}.y")
            .status_code
            for number in range(130)
        ]
        answers += [
            Client()
            .get("/api/matches", HTTP_AUTHORIZATION="Bearer amber.y")
            .status_code
            for _ in range(15)
        ]
        self.assertEqual((answers[0], answers[129], answers[-1]), (401, 401, 429))
        self.assertEqual(
            Client().post("/login", {"token": self.tokens["birch"]}).status_code, 302
        )
        self.assertEqual(self.rest("get", "/api/matches", "cedar").status_code, 200)
        response = Client().post(
            "/teacher/login/",
            {"username": "teacher", "password": PASSWORD, "next": "/teacher/"},
        )
        self.assertEqual(response.status_code, 302)

    def test_a_right_token_that_is_tried_many_times_at_once_is_not_refused(
        self,
    ) -> None:
        """Each try begins while those before it are still looked at."""
        request = RequestFactory().get("/")
        team_of = logins.team_of
        start = iter(range(2 * guards.TRIES))

        def looked_at(token: str) -> Optional[Team]:
            return (
                team_of(token)
                if next(start, None) is None
                else logins.team_of_token(request, token)
            )

        with mock.patch.object(logins, "team_of", looked_at):
            self.assertEqual(
                logins.team_of_token(request, self.tokens["amber"]), self.team("amber")
            )

    def test_a_teacher_who_is_logged_in_is_no_stranger(self) -> None:
        teacher = self.teacher()
        self.assertEqual(teacher.get("/").status_code, 200)
        with mock.patch.object(guards, "STRANGERS", 20):
            self.assertIn(429, [Client().get("/login").status_code for _ in range(40)])
            self.assertEqual(
                [teacher.get("/").status_code for _ in range(9)], [200] * 9
            )

    def test_who_asks_is_an_address_or_a_network_of_the_sixth_version(self) -> None:
        """An address has many spellings, and whoever has one of IPv6 has all of its
        network."""
        for message, expectation in (
            ("192.0.2.7", "192.0.2.7"),
            ("::ffff:192.0.2.7", "192.0.2.7"),
            ("2001:db8::7", "2001:db8::/64"),
            ("2001:db8::8:7", "2001:db8::/64"),
            ("2001:db8:0:0:1:2:3:4", "2001:db8::/64"),
            ("2001:db8:0:1::7", "2001:db8:0:1::/64"),
            ("unknown", "unknown"),
            ("", ""),
        ):
            # what a stranger says of himself is not read: waitress has it of the server
            # before the hall
            request = RequestFactory().get(
                "/", HTTP_X_FORWARDED_FOR="10.0.0.1", REMOTE_ADDR=message
            )
            with self.subTest(message):
                self.assertEqual(guards.address_of(request), expectation)

    def test_the_password_is_limited_too(self) -> None:
        for _ in range(guards.TRIES):
            Client().post(
                "/teacher/login/", {"username": "teacher", "password": "wrong"}
            )
        self.assertFalse(Client().login(username="teacher", password="wrong"))
        self.assertIsNone(
            Client()
            .post("/teacher/login/", {"username": "teacher", "password": PASSWORD})
            .get("Location")
        )

    def test_tokens_are_kept_as_digests_and_stand_in_no_log(self) -> None:
        client = self.client_of("amber")
        client.post("/matches/ask", {"network": "ring of 5"})
        secret = self.tokens["amber"].partition(".")[2]
        for model in (Team, Entry, Attempt):
            for row in model.objects.values():
                self.assertNotIn(secret, str(row))

    def test_a_token_in_an_address_is_refused(self) -> None:
        for path in ("/?token=x", "/api/matches?key=x", "/matches?password=x"):
            self.assertEqual(self.rest("get", path).status_code, 400)

    def test_a_new_token_ends_sessions_and_the_old_token(self) -> None:
        client = self.client_of("amber")
        old = self.tokens["amber"]
        self.tokens["amber"] = self.team("amber").new_token()
        self.assertEqual(client.get("/matches").status_code, 302)
        self.assertEqual(
            Client()
            .get("/api/matches", HTTP_AUTHORIZATION=f"Bearer {old}")
            .status_code,
            401,
        )
        self.assertEqual(self.rest("get", "/api/matches").status_code, 200)

    def test_a_team_without_a_token_cannot_log_in(self) -> None:
        Team.objects.filter(name="cedar").update(digest="")
        for token in ("cedar", "cedar.", ""):
            self.assertNotEqual(
                Client().post("/login", {"token": token}).status_code, 302
            )

    def test_a_session_begins_anew(self) -> None:
        """A session planted in a browser by a stranger is replaced at login."""
        client = Client()
        client.get("/login")
        client.post("/login", {"token": self.tokens["amber"]})
        before = client.cookies[settings.SESSION_COOKIE_NAME].value
        client.post("/login", {"token": self.tokens["amber"]})
        self.assertNotEqual(client.cookies[settings.SESSION_COOKIE_NAME].value, before)
        self.assertTrue(client.cookies[settings.SESSION_COOKIE_NAME]["httponly"])


class Forgeries(Hall):
    def test_each_page_that_changes_something_asks_for_its_secret(self) -> None:
        client = Client(enforce_csrf_checks=True)
        self.assertEqual(
            client.post("/login", {"token": self.tokens["amber"]}).status_code, 403
        )
        page = client.get("/login").content.decode()
        word = re.search('name="csrfmiddlewaretoken" value="([^"]+)"', page)
        assert word is not None
        self.assertEqual(
            client.post(
                "/login",
                {"token": self.tokens["amber"], "csrfmiddlewaretoken": word[1]},
            ).status_code,
            302,
        )
        for path in (
            "/matches/ask",
            "/matches/1/close",
            "/hand-ins/take",
            "/logout",
            "/language/setlang/",
            "/messages",
            "/api/matches",
            "/api/matches/1/close",
            "/api/hand-ins",
        ):
            with self.subTest(path):
                self.assertEqual(
                    client.post(path, {"network": "ring of 5"}).status_code, 403
                )
        self.assertEqual(Attempt.objects.count(), 0)

    def test_nothing_changes_by_get(self) -> None:
        client = self.client_of("amber")
        attempt = self.running(play_match())
        for path in (
            "/matches/ask?network=ring of 5",
            f"/matches/{attempt.pk}/close",
            "/logout",
            "/hand-ins/take",
            f"/api/matches/{attempt.pk}/close",
        ):
            self.assertIn(client.get(path).status_code, (302, 405))
        self.assertEqual(
            (Attempt.objects.count(), Attempt.objects.get().closing), (1, False)
        )
        self.assertEqual(client.get("/matches").status_code, 200)

    def test_other_hosts_and_headers(self) -> None:
        self.assertEqual(
            Client().get("/login", HTTP_HOST="evil.example").status_code, 400
        )
        answer = Client().get("/login")
        self.assertIn("default-src 'none'", answer["Content-Security-Policy"])
        self.assertIn("frame-ancestors 'none'", answer["Content-Security-Policy"])
        self.assertEqual(
            (answer["X-Frame-Options"], answer["Cache-Control"]), ("DENY", "no-store")
        )
        self.assertNotIn("ETag", answer)
        answer = Client().post(
            "/language/setlang/", {"language": "de", "next": "https://evil.example/"}
        )
        self.assertEqual(answer["Location"], "/")


class Attempts(Hall):
    def test_what_a_team_asks_for(self) -> None:
        made = self.rest("post", "/api/matches", body={"network": "ring of 5"})
        self.assertEqual((made.status_code, made.json()["state"]), (201, "waiting"))
        self.assertEqual(made["Location"], f"/api/matches/{made.json()['id']}")
        for body, status in (
            ({"network": "none"}, 404),
            ({}, 400),
            ({"network": ["x"]}, 400),
            ([], 400),
            ({"network": "x" * 70}, 400),
            ({"network": "' OR 1=1; DROP TABLE teams_team; --"}, 404),
        ):
            with self.subTest(body):
                reply = self.rest("post", "/api/matches", body=body)
                self.assertEqual(reply.status_code, status)
                self.assertEqual(list(reply.json()), ["error"])

    def test_limits(self) -> None:
        request = [
            self.rest("post", "/api/matches", body={"network": "ring of 5"}).status_code
            for _ in range(3)
        ]
        self.assertEqual(request, [201, 201, 429])
        # another team is not kept from its own
        self.assertEqual(
            self.rest(
                "post", "/api/matches", "birch", {"network": "ring of 5"}
            ).status_code,
            201,
        )

    def test_closed_networks(self) -> None:
        Switch.objects.filter(network="ring of 5").update(is_open=False)
        self.assertEqual(
            self.rest(
                "post", "/api/matches", body={"network": "ring of 5"}
            ).status_code,
            404,
        )
        self.assertContains(self.client_of("amber").get("/matches"), "closed")

    def test_who_has_too_many_files_loses_old_practice(self) -> None:
        old = self.over(play_match())
        Attempt.objects.filter(pk=old.pk).update(size=300 << 20)
        self.assertEqual(
            self.rest(
                "post", "/api/matches", body={"network": "ring of 5"}
            ).status_code,
            201,
        )
        old.refresh_from_db()
        self.assertEqual(
            (old.size, old.folder.exists(), old.matches.get().outcome),
            (0, False, "solved"),
        )
        running = self.running(play_match())
        Attempt.objects.filter(pk=running.pk).update(size=300 << 20)
        reply = self.rest("post", "/api/matches", body={"network": "ring of 5"})
        self.assertEqual((reply.status_code, running.folder.exists()), (429, True))

    def test_bodies_that_are_too_large_or_too_deep(self) -> None:
        for length, name, status in (
            (9 << 20, "amber", 413),
            (100 << 10, "", 413),
            (100 << 10, "amber", 413),
            (60 << 10, "amber", 400),
        ):
            token = (
                {"HTTP_AUTHORIZATION": f"Bearer {self.tokens['amber']}"} if name else {}
            )
            self.rest("get", "/api/matches")
            response = Client().post(
                "/api/matches", b"[" * length, content_type="application/json", **token
            )
            self.assertEqual(response.status_code, status)
        response = Client().post("/login", {"token": "amber\0.x"})
        self.assertEqual(response.status_code, 400)
        response = self.rest("post", "/api/matches", body={"network": "ring\0of 5"})
        self.assertEqual(response.status_code, 400)

    def test_a_body_is_bounded_by_its_route_before_it_is_parsed(self) -> None:
        """Objects in objects take thirty times their bytes."""
        parses = mock.patch.object(JSONParser, "parse", side_effect=AssertionError)
        for path, kilobytes in (
            ("/api/matches", 64),
            ("/api/trials", 256),
            ("/api/drafts/python", 256),
            ("/api/drafts/python/hand-in", 256),
        ):
            body = b"[" + b"{}," * (kilobytes << 10) + b"{}]"
            how = "put" if path.endswith("python") else "post"
            with parses, self.subTest(path):
                reply = getattr(Client(), how)(
                    path,
                    body,
                    content_type="application/json",
                    HTTP_AUTHORIZATION=f"Bearer {self.tokens['amber']}",
                )
                self.assertEqual(reply.status_code, 413)
                text = f"that is too much: at most {kilobytes} KB"
                self.assertEqual(reply.json()["error"], text)
        # hand-ins are larger, and sent as forms
        with parses:
            reply = self.rest("post", "/api/hand-ins", body=[{}] * (64 << 10))
        self.assertEqual(reply.status_code, 415)

    def test_floods_are_refused_and_slow_no_other_team(self) -> None:
        with stopped_clock(), hall_with(
            limits=settings.HALL.limits._replace(requests=30)
        ):
            answers = [self.rest("get", "/api/matches").status_code for _ in range(60)]
            self.assertEqual((answers[0], answers[-1]), (200, 429))
            reply = self.rest("get", "/api/matches")
            self.assertGreaterEqual(int(reply["Retry-After"]), 1)
            self.assertEqual(self.rest("get", "/api/matches", "birch").status_code, 200)
            # a new session of the same team has no new requests
            self.assertEqual(self.rest("get", "/api/matches").status_code, 429)
