"""What a team sees of matches of a hall, its own and others."""
import re
from typing import List

from tests.integration.hall.hall_pages import PLACE, Hall, play_match

from django.test import Client

from arena_lab.hall.attempts import seen
from arena_lab.hall.attempts.models import Attempt


class Isolation(Hall):
    """What a team learns of a match that goes on, and of other teams."""

    def answers(self, attempt: Attempt, name: str = "amber") -> List[bytes]:
        """Every answer about an attempt: status, headers and bytes, but for what is
        random in each answer."""
        client = self.client_of(name)
        results = []
        number = attempt.pk
        for path in (
            f"/matches/{number}",
            "/matches",
            f"/api/matches/{number}",
            "/api/matches",
            "/api/standings",
            f"/matches/{number}/0/page",
            f"/matches/{number}/0/replay",
            f"/api/matches/{number}/replays/0",
            f"/matches/{number}/1/page",
            "/",
            "/screen",
            "/hand-ins",
        ):
            answer = client.get(path)
            body = re.sub(
                rb'name="csrfmiddlewaretoken" value="[^"]+"', b"", answer.content
            )
            headers = {
                name: it for name, it in answer.headers.items() if name != "Set-Cookie"
            }
            results.append(
                repr((path, answer.status_code, sorted(headers.items()), body)).encode()
            )
        return results

    def test_matches_that_no_agent_can_tell_apart_have_the_same_answers(self) -> None:
        """The black hole is another node, and in one match an agent is destroyed that
        is on its way in the other: no page, no REST, no size, no header and no error
        tells which."""
        dead = play_match(1)
        alive = play_match(3)
        for match in (dead, alive):
            match.reply_to(1, {"do": "enter"})
            match.reply_to(0, {"do": "depart", "port": 0})
        dead.deliver(0)
        self.assertIsNone(dead.log[-1]["reply"])
        attempt = self.running(alive)
        first = self.answers(attempt)
        seen.part.cache_clear()
        self.write(attempt.matches.get(), dead)
        self.assertEqual(self.answers(attempt), first)
        self.assertIn(b"gone", b"".join(first))

    def test_nothing_of_black_holes_or_deaths_before_the_close(self) -> None:
        match = play_match(4)
        match.reply_to(0, {"do": "depart", "port": 1})
        match.deliver(0)
        attempt = self.running(match)
        text = b"".join(self.answers(attempt))
        for word in (
            b"holes&quot;",
            b'"home',
            b"lost&quot;: 1",
            b"Black hole: node",
            b"was lost by",
        ):
            self.assertNotIn(word, text)
        reply = self.rest("get", f"/api/matches/{attempt.pk}").json()
        self.assertEqual(
            (
                reply["matches"][0]["after"],
                reply["matches"][0]["verdict"],
                reply["solved"],
            ),
            (None, None, 0),
        )

    def test_another_teams_match_is_as_if_there_were_none(self) -> None:
        for attempt in (self.running(play_match()), self.over(play_match())):
            theirs = self.client_of("birch")
            none = 999_999
            for path in (
                "/matches/{}",
                "/matches/{}/0/page",
                "/matches/{}/0/replay",
                "/api/matches/{}",
                "/api/matches/{}/replays/0",
            ):
                with self.subTest(path):
                    first = theirs.get(path.format(attempt.pk))
                    second = theirs.get(path.format(none))
                    self.assertEqual(
                        (first.status_code, first.content), (404, second.content)
                    )
            for path in ("/matches/{}/close", "/api/matches/{}/close"):
                self.assertEqual(theirs.post(path.format(attempt.pk)).status_code, 404)
                self.assertEqual(
                    self.rest("post", path.format(attempt.pk), "birch").status_code, 404
                )
            attempt.refresh_from_db()
            self.assertFalse(attempt.closing)
            self.assertEqual(Client().get(f"/matches/{attempt.pk}").status_code, 404)

    def test_paths_lead_nowhere_else(self) -> None:
        attempt = self.over(play_match())
        client = self.client_of("amber")
        for path in (
            "/static/../settings.py",
            "/static/%2e%2e/settings.py",
            "/static//etc/passwd",
            f"/matches/{attempt.pk}/../../key.txt",
            "/hall.sqlite3",
            "/tournament.toml",
            f"/matches/{attempt.pk}/0/../tournament.toml",
            f"/static/{PLACE.folder}/key.txt",
            f"/matches/{10 ** 30}",
            "/matches/-1",
            f"/api/matches/{10 ** 30}",
            "/hand-ins/1/result/../../x",
            "/matches/1/99999999999/page",
        ):
            with self.subTest(path):
                self.assertIn(client.get(path).status_code, (400, 404))

    def test_texts_of_strangers_are_texts(self) -> None:
        attempt = self.over(play_match())
        client = self.client_of("birch")
        page = client.get("/").content.decode()
        self.assertIn("&lt;script&gt;alert(1)&lt;/script&gt; Łódź", page)
        self.assertIn("A &lt;b&gt;trial&lt;/b&gt;", page)
        for text in (
            page,
            self.client_of("amber").get(f"/matches/{attempt.pk}").content.decode(),
            self.teacher().get("/teacher/attempts/attempt/").content.decode(),
        ):
            self.assertNotIn("<script>alert", text)
        page = self.client_of("amber").get(f"/matches/{attempt.pk}/0/page")
        self.assertTrue(
            page["Content-Security-Policy"].startswith(
                "sandbox allow-scripts; default-src 'none'"
            )
        )

    def test_after_the_close_losses_are_told(self) -> None:
        match = play_match(1)
        match.reply_to(0, {"do": "depart", "port": 0})
        match.deliver(0)
        attempt = self.over(match)
        self.assertContains(
            self.client_of("amber").get(f"/matches/{attempt.pk}"),
            "Agent 0 was lost by port 0",
        )
        reply = self.rest("get", f"/api/matches/{attempt.pk}").json()
        self.assertEqual(reply["matches"][0]["after"]["holes"], [1])
        replay = self.rest("get", f"/api/matches/{attempt.pk}/replays/0")
        self.assertEqual(
            b"".join(replay.streaming_content).decode(),
            attempt.matches.get().replay.read_text(),
        )
