"""Signing in by a provider of OpenID Connect, and what is refused of it."""
import hmac
import http.client
import time
import unittest
import urllib.parse
from typing import Any, Dict
from unittest import mock

from tests.integration.hall.hall_pages import PLACE, Hall, hall_with
from tests.support.needing import needs

from django.conf import settings
from django.contrib.auth import get_user_model
from django.contrib.sessions.models import Session
from django.test import Client

from arena_lab.commands.hall import check_sign_on
from arena_lab.hall.hall_files import Member, hall_of
from arena_lab.hall.sign_on.rules import SECRET_FILE, SignOnRules, secret_in
from arena_lab.hall.teams.models import Entry, Team
from arena_lab.support.fields import FileFormatError
from arena_lab.support.missing import missing_of

if not missing_of(["authlib", "requests"]):
    from authlib.jose import jwt

    from arena_lab.hall.sign_on import provider as asking
    from arena_lab.hall.sign_on import views
    from tests.integration.hall.oidc_provider import (
        CLIENT,
        SECRET,
        OidcProvider,
        encode,
    )

MAIL = "ada@example.edu"
INVALID = "the provider&#x27;s answer is not valid"
OTHER = "this answer is for another browser, or too late"
SILENT = "the provider does not answer now"
UNKNOWN = "you are in no team of this course, or in several"


@needs("authlib", "requests")
class SignOn(Hall):
    """A hall with a provider, where ada is a member of amber."""

    def setUp(self) -> None:
        super().setUp()
        asking.PROVIDER.clear()
        views.questions.clear()
        self.provider = OidcProvider()
        self.addCleanup(self.provider.close)
        secret = PLACE.folder / SECRET_FILE
        secret.touch(mode=0o600)
        secret.write_text(SECRET + "\n")
        self.addCleanup(secret.unlink)
        self.rules = SignOnRules(
            self.provider.issuer, CLIENT, "", "email", "", 0, "", ""
        )
        self.teach()

    def teach(self, members: Any = (MAIL,), **rules: Any) -> None:
        """Changes the rules, and who is a member of amber."""
        teams = [Member("amber", "amber", members), Member("birch", "birch")]
        patch = hall_with(sign_on=self.rules._replace(**rules), teams=teams)
        self.enterContext(patch)

    def answer_of(self, client: Client) -> str:
        """Begins in a browser, is signed in at the provider, and gives its answer."""
        reply = client.get("/sign-on")
        self.assertEqual(reply.status_code, 302, reply.content)
        url = urllib.parse.urlsplit(reply["Location"])
        self.assertTrue(reply["Location"].startswith(self.provider.issuer))
        connection = http.client.HTTPConnection(url.netloc, timeout=30)
        self.addCleanup(connection.close)
        connection.request("GET", f"{url.path}?{url.query}")
        location = connection.getresponse().headers["Location"]
        self.assertTrue(location.startswith("http://testserver/sign-on/back?"))
        return str(location.removeprefix("http://testserver"))

    def sign_in(self, client: Any = None) -> Any:
        client = client or Client()
        return client.get(self.answer_of(client))

    def assert_refused(self, reply: Any, text: str, status: int = 403) -> None:
        """A sentence says why, and nobody is logged in."""
        self.assertContains(reply, text, status_code=status)
        self.assertNotIn("team", reply.client.session)
        self.assertNotIn("_auth_user_id", reply.client.session)
        self.assertEqual(reply.client.get("/matches")["Location"], "/login")


class People(SignOn):
    def test_a_member_signs_in_and_the_token_stays(self) -> None:
        client = Client()
        self.assertContains(client.get("/login"), 'href="/sign-on"')
        reply = self.sign_in(client)
        self.assertEqual((reply.status_code, reply["Location"]), (302, "/matches"))
        self.assertContains(client.get("/matches"), "amber")
        self.assertEqual(self.rest("get", "/api/matches").status_code, 200)
        self.assertEqual(Entry.objects.get(who="amber").what, f"signs in as {MAIL}")

    def test_a_hall_without_the_table_has_no_such_pages(self) -> None:
        with hall_with(sign_on=None):
            self.assertNotContains(Client().get("/login"), "sign-on")
            for path in ("/sign-on", "/sign-on/back?code=a&state=b"):
                self.assertEqual(Client().get(path).status_code, 404)

    def test_an_address_in_any_case_is_the_same(self) -> None:
        self.provider.person["email"] = "Ada@Example.EDU "
        self.assertEqual(self.sign_in().status_code, 302)

    def test_an_address_that_is_not_verified_is_refused(self) -> None:
        for word in (False, None, "false", 1):
            self.provider.claims["email_verified"] = word
            self.assert_refused(self.sign_in(), "your address is not verified")

    def test_a_provider_may_write_claims_beside_the_token(self) -> None:
        """As Shibboleth does; what it has signed counts, and another person is none."""
        address = f"{self.provider.issuer}/userinfo"
        self.provider.metadata = {"userinfo_endpoint": address}
        self.provider.person = {"sub": "17"}
        right = {"sub": "17", "email": MAIL, "email_verified": True}
        self.provider.document = right
        self.assertEqual(self.sign_in().status_code, 302)
        self.provider.document = {**right, "sub": "18"}
        self.assert_refused(self.sign_in(), SILENT, 502)
        self.provider.document = right
        self.provider.claims = {"email_verified": False}
        self.assert_refused(self.sign_in(), "your address is not verified")
        self.provider.claims = {"email": MAIL}
        self.provider.document = {**right, "email": "emmy@example.edu"}
        self.assert_refused(self.sign_in(), "your address is not verified")
        # a token that says all is enough
        self.provider.claims = {"email": MAIL, "email_verified": True}
        self.provider.document = {}
        self.assertEqual(self.sign_in().status_code, 302)

    def test_another_claim_may_name_people(self) -> None:
        self.teach(members=["Ada"], claim="preferred_username")
        self.provider.person = {"sub": "17", "preferred_username": "Ada"}
        self.assertEqual(self.sign_in().status_code, 302)
        for name in ("ada", "", None, 7, "a" * 200):
            self.provider.claims["preferred_username"] = name
            self.assertEqual(self.sign_in().status_code, 403)

    def test_who_is_in_no_team_or_in_two_is_told(self) -> None:
        self.teach(members=[])
        self.assert_refused(self.sign_in(), UNKNOWN)
        self.teach(members=[], team_claim="groups")
        for groups in (["birch", "amber"], ["dune"], "dune", [["birch"]], {"birch": 1}):
            self.provider.claims["groups"] = groups
            self.assert_refused(self.sign_in(), UNKNOWN)
        self.provider.claims["groups"] = ["students", "birch"]
        client = Client()
        self.sign_in(client)
        self.assertEqual(client.session["team"], self.team("birch").pk)

    def test_the_first_sign_in_makes_a_team_as_long_as_there_may_be_more(self) -> None:
        self.teach(members=[], new_teams=1)
        self.provider.person["name"] = "Ada <b>\u202eL"
        first = Client()
        second = Client()
        self.assertEqual(self.sign_in(first).status_code, 302)
        self.sign_in(second)
        self.assertEqual(first.session["team"], second.session["team"])
        team = Team.objects.get(pk=first.session["team"])
        self.assertRegex(team.name, "^ada-[0-9a-f]{6}$")
        self.assertEqual((team.display, team.is_guest), ("Ada <b>L", False))
        self.provider.person["email"] = "emmy@example.edu"
        self.assert_refused(self.sign_in(), UNKNOWN)

    def test_a_guest_is_no_team_of_a_claim(self) -> None:
        self.teach(members=[], team_claim="groups")
        Team.objects.create(name="dune", is_guest=True)
        self.provider.claims["groups"] = "dune"
        self.assert_refused(self.sign_in(), UNKNOWN)

    def test_a_teacher_by_a_claim_as_long_as_it_is_there(self) -> None:
        self.teach(teacher_claim="groups", teacher_value="staff")
        client = Client()
        for groups in (["staff"], "staff", ["a", "staff"]):
            self.provider.claims["groups"] = groups
            self.assertEqual(self.sign_in(client)["Location"], "/teacher/")
            self.assertEqual(client.get("/teacher/").status_code, 200)
        user = get_user_model().objects.get(username=f"sign-on: {MAIL}")
        self.assertFalse(user.has_usable_password())
        for groups in (["staff2"], "staffs", None, {"staff": True}):
            self.provider.claims["groups"] = groups
            self.assertEqual(self.sign_in()["Location"], "/matches")
        # the earlier session has lost the rights of a teacher
        self.assertEqual(client.get("/teacher/").status_code, 302)

    def test_a_person_takes_over_no_user_with_a_password(self) -> None:
        self.teach(
            claim="preferred_username", teacher_claim="groups", teacher_value="staff"
        )
        self.provider.claims = {"groups": "staff", "preferred_username": "teacher"}
        before = get_user_model().objects.get(username="teacher").password
        self.sign_in()
        after = get_user_model().objects.get(username="teacher").password
        self.assertEqual(after, before)


class Forgeries(SignOn):
    def test_an_answer_is_for_the_browser_that_has_asked_and_once(self) -> None:
        ada = Client()
        answer = self.answer_of(ada)
        self.assert_refused(Client().get(answer), OTHER)
        stranger = Client()
        self.answer_of(stranger)
        self.assert_refused(stranger.get(answer), OTHER)
        self.assertEqual(ada.get(answer).status_code, 302)
        self.assertContains(ada.get(answer), OTHER, status_code=403)

    def test_a_forged_state_is_refused_and_ends_the_flow(self) -> None:
        client = Client()
        answer = self.answer_of(client)
        for state in ("", "x", "\u00e4"):
            query = urllib.parse.urlencode({"code": "x", "state": state})
            self.assert_refused(client.get(f"/sign-on/back?{query}"), OTHER)
        self.assert_refused(client.get(answer), OTHER)

    def test_an_answer_that_comes_late_is_refused(self) -> None:
        client = Client()
        answer = self.answer_of(client)
        late = time.time() + views.FLOW_SECONDS + 1
        with mock.patch.object(views.time, "time", lambda: late):
            self.assert_refused(client.get(answer), OTHER)

    def test_a_code_that_was_used_is_refused(self) -> None:
        client = Client()
        old_query = urllib.parse.parse_qs(self.answer_of(client).partition("?")[2])
        self.sign_in(Client())
        query = urllib.parse.parse_qs(self.answer_of(client).partition("?")[2])
        self.provider.token({"code": old_query["code"][0]}, {"Authorization": ""})
        query["code"] = old_query["code"]
        path = f"/sign-on/back?{urllib.parse.urlencode(query, doseq=True)}"
        self.assert_refused(client.get(path), INVALID)

    def test_a_code_of_another_browser_is_refused(self) -> None:
        """It was asked for by another verifier."""
        code = urllib.parse.parse_qs(self.answer_of(Client()).partition("?")[2])["code"]
        client = Client()
        query = urllib.parse.parse_qs(self.answer_of(client).partition("?")[2])
        words = urllib.parse.urlencode({**query, "code": code}, doseq=True)
        self.assert_refused(client.get(f"/sign-on/back?{words}"), INVALID)

    def test_an_answer_of_another_issuer_is_refused(self) -> None:
        client = Client()
        answer = self.answer_of(client)
        self.assert_refused(client.get(f"{answer}&iss=https://evil.example"), OTHER)

    def test_a_token_is_refused_that_says_something_else(self) -> None:
        now = int(time.time())
        faults: Dict[str, Any] = {
            "nonce": "another",
            "aud": "another",
            "iss": "https://evil.example",
            "exp": now - 120,
            "nbf": now + 600,
            "azp": "another",
            "at_hash": "another",
        }
        for name, value in faults.items():
            with self.subTest(name):
                self.provider.claims = {name: value}
                self.assert_refused(self.sign_in(), INVALID)
        for name in ("nonce", "aud", "iss", "exp", "iat", "sub"):
            with self.subTest(f"no {name}"):
                self.provider.claims = {name: None}
                self.assert_refused(self.sign_in(), INVALID)
        # another audience beside, and a claim by which authlib would pass over the nonce
        for claims in (
            {"aud": ["another"], "azp": CLIENT},
            {"nonce": "another", "nonce_supported": False},
        ):
            self.provider.claims = claims
            self.assert_refused(self.sign_in(), INVALID)

    def test_a_token_is_refused_that_the_provider_has_not_signed(self) -> None:
        other_key = self.provider.new_key("first")
        public = self.provider.key.as_pem(is_private=False)

        def sign_nothing(claims: Any) -> str:
            return f"{encode({'alg': 'none'})}.{encode(claims)}."

        def by_other(claims: Any) -> str:
            header = {"alg": "RS256", "kid": "first"}
            return str(jwt.encode(header, claims, other_key).decode())

        def by_mac(key: bytes) -> Any:
            """Signs by a public text in the place of a secret."""

            def sign(claims: Any) -> str:
                head = {"alg": "HS256", "kid": "first"}
                text = f"{encode(head)}.{encode(claims)}"
                return f"{text}.{encode(hmac.digest(key, text.encode(), 'sha256'))}"

            return sign

        def change_address(claims: Any) -> str:
            head, _, mark = self.provider.sign_right(claims).split(".")
            return f"{head}.{encode({**claims, 'email': 'x@example.edu'})}.{mark}"

        forgeries = (sign_nothing, by_other, by_mac(public), by_mac(SECRET.encode()))
        for sign in (*forgeries, change_address, lambda claims: "no token"):
            self.provider.sign = sign
            self.assert_refused(self.sign_in(), INVALID)

    def test_no_sign_in_leads_elsewhere(self) -> None:
        client = Client()
        reply = client.get("/sign-on?next=https://evil.example")
        self.assertNotIn("evil", reply["Location"])
        answer = self.answer_of(client)
        reply = client.get(f"{answer}&next=https://evil.example")
        self.assertEqual(reply["Location"], "/matches")
        self.assertEqual(
            Client().get("/sign-on", HTTP_HOST="evil.example").status_code, 400
        )


class Faults(SignOn):
    def test_a_provider_that_errs_is_told_and_waited_for_shortly(self) -> None:
        elsewhere = {"Location": f"{self.provider.issuer}/keys"}
        answers = ((500, {}, b""), (200, {}, b"no"), (200, {}, b"[]"))
        for answer in (*answers, (302, elsewhere, b"")):
            with self.subTest(answer[0], text=answer[2]):
                self.provider.answers = {"openid-configuration": answer}
                self.assert_refused(Client().get("/sign-on"), SILENT, 502)
        # no redirection was followed
        self.assertEqual(set(self.provider.requests), {"openid-configuration"})
        self.provider.answers = {}
        for name, value in (
            ("issuer", "https://evil.example"),
            ("token_endpoint", "http://evil.example/token"),
            ("jwks_uri", "file:///etc/passwd"),
            ("userinfo_endpoint", "http://evil.example/userinfo"),
            ("large", "a" * asking.MAX_BYTES),
        ):
            self.provider.metadata = {name: value}
            self.assert_refused(Client().get("/sign-on"), SILENT, 502)

    def test_an_answer_that_drips_is_cut_off(self) -> None:
        self.provider.pause = 0.1
        with mock.patch.object(asking, "ANSWER_SECONDS", 0.5):
            begin = time.monotonic()
            self.assert_refused(Client().get("/sign-on"), SILENT, 502)
        self.assertLess(time.monotonic() - begin, 3)

    def test_a_new_key_is_asked_for_and_unknown_ones_once_a_minute(self) -> None:
        self.sign_in()
        self.provider.key = self.provider.new_key("second")
        with mock.patch.object(asking, "AGAIN_SECONDS", 0.0):
            self.assertEqual(self.sign_in().status_code, 302)
        count = self.provider.requests["keys"]
        self.provider.key = self.provider.new_key("third")
        for _ in range(3):
            self.assert_refused(self.sign_in(), INVALID)
        self.assertEqual(self.provider.requests["keys"], count)
        self.assertEqual(self.provider.requests["openid-configuration"], 1)

    def test_one_address_has_the_provider_asked_some_times_a_minute(self) -> None:
        with mock.patch.object(views, "A_MINUTE", 2):
            client = Client()
            for _ in range(2):
                client.get("/sign-on")
            reply = client.get("/sign-on")
        self.assert_refused(reply, "too many tries: wait a minute", 429)

    def test_flows_that_nobody_ends_leave_the_database(self) -> None:
        for _ in range(3):
            Client().get("/sign-on")
        limit = time.time() + views.FLOW_SECONDS + 1
        ends = [row.expire_date.timestamp() for row in Session.objects.all()]
        self.assertEqual([end < limit for end in ends], [True] * 3)

    def test_no_log_has_what_signs_somebody_in(self) -> None:
        self.provider.sign = lambda claims: "ey.no.token"
        client = Client()
        answer = self.answer_of(client)
        code = urllib.parse.parse_qs(answer.partition("?")[2])["code"][0]
        with self.assertLogs(level="INFO") as logs:
            client.get(answer)
        text = "\n".join([*logs.output, *Entry.objects.values_list("what", flat=True)])
        self.assertIn("a token of [sign_on] is refused", text)
        for word in (code, SECRET, "ey.no"):
            self.assertNotIn(word, text)


class Settings(unittest.TestCase):
    def test_mistakes_in_the_table_are_told(self) -> None:
        text = settings.HALL.text + "\n[sign_on]\n"
        right = {"issuer": '"https://login.example.edu"', "client": '"arena"'}
        for changes, fault in (
            ({}, ""),
            ({"issuer": '"http://login.example.edu"'}, "begins with https://"),
            ({"issuer": '"https://login.example.edu?a"'}, "begins with https://"),
            ({"issuer": '"file:///etc"'}, "begins with https://"),
            ({"teacher_claim": '"groups"'}, "both teacher_claim and teacher_value"),
            ({"secret": '"a"'}, "sign_on has no key secret"),
        ):
            rows = {**right, **changes}
            table = "".join(f"{name} = {value}\n" for name, value in rows.items())
            if fault:
                with self.assertRaisesRegex(FileFormatError, fault):
                    hall_of(text + table, settings.HALL.path)
            else:
                self.assertIsNotNone(hall_of(text + table, settings.HALL.path).sign_on)

    def test_a_hall_does_not_start_without_its_secret(self) -> None:
        rules = SignOnRules("https://login.example.edu", "arena", "", "", "", 0, "", "")
        check_sign_on(settings.HALL, PLACE)
        with self.assertRaisesRegex(FileFormatError, "trial.hall/sign-on.txt, and"):
            check_sign_on(settings.HALL._replace(sign_on=rules), PLACE)

    def test_a_secret_that_others_may_read_is_refused(self) -> None:
        path = PLACE.folder / SECRET_FILE
        with self.assertRaisesRegex(FileFormatError, "write the client's secret"):
            secret_in(PLACE.folder)
        path.write_text("a\n")
        self.addCleanup(path.unlink)
        for mode in (0o640, 0o604):
            path.chmod(mode)
            with self.assertRaisesRegex(FileFormatError, "others may read"):
                secret_in(PLACE.folder)
        path.chmod(0o600)
        self.assertEqual(secret_in(PLACE.folder), "a")
