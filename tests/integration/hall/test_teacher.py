"""Messages, and the pages of a teacher and of tutors."""
import datetime
from typing import Any, Dict, Tuple

from tests.integration.hall.hall_pages import Hall, make_grading, play_match

from django.contrib.auth import get_user_model
from django.contrib.auth.models import Permission
from django.test import Client
from django.utils import timezone

from arena_lab.hall import machine, shares
from arena_lab.hall.attempts.models import Attempt, Worker
from arena_lab.hall.teams.models import Entry, Message, Team


class Messages(Hall):
    """Announcements and questions."""

    def test_who_sees_what(self) -> None:
        amber = self.client_of("amber")
        birch = self.client_of("birch")
        self.assertEqual(
            amber.post("/messages", {"text": "<b>why</b>?"}).status_code, 302
        )
        Message.objects.create(text="tomorrow is a contest")
        for client in (amber, birch):
            self.assertContains(client.get("/messages"), "tomorrow is a contest")
        self.assertContains(amber.get("/messages"), "&lt;b&gt;why&lt;/b&gt;?")
        question = Message.objects.get(team=self.team("amber"))
        for answer, is_public, sees in (
            ("", True, False),
            ("because", False, False),
            ("because", True, True),
        ):
            Message.objects.filter(pk=question.pk).update(
                answer=answer, is_public=is_public
            )
            self.assertEqual(b"why" in birch.get("/messages").content, sees)
        self.assertContains(amber.get("/messages"), "because")
        self.assertEqual(Client().get("/messages").status_code, 302)

    def test_questions_are_bounded(self) -> None:
        client = self.client_of("amber")
        self.assertEqual(
            client.post("/messages", {"text": "x" * 2_001}).status_code, 400
        )
        reply = [
            client.post("/messages", {"text": "why?"}).status_code for _ in range(6)
        ]
        self.assertEqual(reply, [302] * 5 + [429])
        self.assertEqual(
            self.client_of("birch").post("/messages", {"text": "why?"}).status_code, 302
        )


class Teachers(Hall):
    def test_teams_are_no_teachers(self) -> None:
        client = self.client_of("amber")
        for path in (
            "/teacher/",
            "/teacher/teams/team/",
            "/teacher/attempts/attempt/",
            "/teacher/teams/entry/",
        ):
            self.assertIn("/teacher/login/", client.get(path)["Location"])

    def test_pages_of_the_teacher(self) -> None:
        client = self.teacher()
        self.over(play_match())
        self.running(play_match(), "birch")
        for path in (
            "",
            "teams/team/",
            "teams/team/add/",
            "attempts/attempt/",
            "teams/switch/",
            "handins/contest/add/",
            "handins/extension/add/",
            "handins/grading/",
            "teams/message/add/",
            "teams/entry/",
            "standings/reveal/add/",
        ):
            self.assertEqual(client.get(f"/teacher/{path}").status_code, 200, path)
        self.assertContains(
            client.get(f"/matches/{Attempt.objects.order_by('pk').first().pk}"),
            "solved",
        )

    def test_key_sheets(self) -> None:
        client = self.teacher()
        team = self.team("cedar")
        response = client.post(
            "/teacher/teams/team/",
            {"action": "draw_tokens", "_selected_action": [team.pk]},
        )
        token = response.content.decode().splitlines()[1].split(",")[2]
        self.assertEqual(Client().post("/login", {"token": token}).status_code, 302)
        self.assertEqual(
            Client().post("/login", {"token": self.tokens["cedar"]}).status_code, 403
        )
        self.assertNotIn(token, str(list(Entry.objects.values())))
        self.assertTrue(Entry.objects.filter(what="draws a token for cedar").exists())

    def test_actions(self) -> None:
        client = self.teacher()
        running = self.running(play_match(), "birch")
        client.post(
            "/teacher/attempts/attempt/",
            {"action": "close", "_selected_action": [running.pk]},
        )
        running.refresh_from_db()
        self.assertTrue(running.closing)
        self.assertContains(client.get("/teacher/admin/logentry/"), "closed")

    def test_a_tutor_sees_and_does_what_the_teacher_allows(self) -> None:
        make_grading("amber", 1)
        running = self.running(play_match(), "birch")
        tutor = get_user_model().objects.create_user(
            "tutor", password="another long password", is_staff=True
        )
        client = Client()
        self.assertTrue(
            client.login(username="tutor", password="another long password")
        )

        def try_actions() -> Any:
            reply = [
                client.get(path).status_code
                for path in (f"/matches/{running.pk}", "/teacher/standings.csv")
            ]
            reply.append(client.post(f"/matches/{running.pk}/close").status_code)
            client.post(
                "/teacher/attempts/attempt/",
                {"action": "close", "_selected_action": [running.pk]},
            )
            running.refresh_from_db()
            return [*reply, running.closing]

        self.assertEqual(try_actions(), [404, 403, 404, False])
        tutor.user_permissions.add(
            *Permission.objects.filter(codename__in=("view_attempt", "view_grading"))
        )
        self.assertEqual(try_actions(), [200, 200, 404, False])
        tutor.user_permissions.add(Permission.objects.get(codename="change_attempt"))
        self.assertEqual(try_actions(), [200, 200, 302, True])

    def test_forms_for_sixty_teams(self) -> None:
        for number in range(60):
            Team.objects.create(name=f"team{number}")
        client = self.teacher()
        teams = list(Team.objects.order_by("name"))
        row: Dict[str, Any] = {
            "form-TOTAL_FORMS": len(teams),
            "form-INITIAL_FORMS": len(teams),
            "_save": "Save",
        }
        for index, team in enumerate(teams):
            row.update(
                {f"form-{index}-id": team.pk, f"form-{index}-display": f"Team {index}"}
            )
        self.assertEqual(client.post("/teacher/teams/team/", row).status_code, 302)
        self.assertEqual(Team.objects.filter(display="Team 62").count(), 1)
        response = client.post(
            "/teacher/teams/team/",
            {"action": "draw_tokens", "_selected_action": [team.pk for team in teams]},
        )
        self.assertEqual(len(response.content.decode().splitlines()), 64)

    def test_the_health_of_a_hall(self) -> None:
        """Dead workers give status 503, and busy ones a growing age of the oldest match
        that waits."""
        self.running(play_match())
        self.rest("post", "/api/matches", body={"network": "ring of 5"})
        figures = {"waiting": 1, "oldest": 0, "running": 1}
        self.assertEqual(self.health(), (503, {**figures, "workers": 0}))
        shares.announce("one")
        self.assertEqual(self.health(), (200, {**figures, "workers": 1}))
        past = timezone.now() - datetime.timedelta(seconds=90)
        Attempt.objects.filter(state=machine.WAITING).update(asked=past)
        Worker.objects.update(contact=past)
        figures["oldest"] = 90
        self.assertEqual(self.health(), (503, {**figures, "workers": 0}))
        self.assertEqual(get_user_model().objects.count(), 1)

    def health(self) -> Tuple[int, Any]:
        reply = Client().get("/health")
        return reply.status_code, reply.json()
