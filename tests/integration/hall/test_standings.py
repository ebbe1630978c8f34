"""Standings of a course and of its contests: freezes, unveilings, languages and who sees
them."""
import pathlib
import tempfile
from typing import Any, Dict
from unittest import mock

from arena_lab.hall import machine
from tests.integration.hall.hall_pages import (
    Hall,
    contest_of,
    make_grading,
    hall_with,
    play_match,
)

from django.conf import settings
from django.test import Client
from django.utils import timezone

from arena_lab.hall import keys
from arena_lab.hall.handins import grading_work, taking
from arena_lab.hall.handins.models import Contest, Extension, Grading
from arena_lab.hall.standings import team_tables
from arena_lab.hall.standings.models import Reveal
from arena_lab.hall.teams.models import Team


class Standings(Hall):
    """The table of the course."""

    def rows(self, path: str = "/api/standings", name: str = "birch") -> Any:
        return [
            (row["place"], row["team"], row["solved"])
            for row in self.rest("get", path, name).json()["teams"]
        ]

    def test_the_last_hand_in_counts_and_who_has_none_stands_last(self) -> None:
        make_grading("amber", 2)
        make_grading("amber", 1)
        make_grading("birch", 1, 9)
        self.assertEqual(
            self.rows(), [(1, "amber", 1), (2, "birch", 1), (3, "cedar", 0)]
        )
        reply = self.rest("get", "/api/standings").json()
        self.assertEqual(
            (
                reply["networks"],
                reply["teams"][0]["cells"],
                reply["secret"],
                reply["frozen"],
            ),
            (["ring:5"], [{"solved": 1, "matches": 2}], False, None),
        )
        self.assertTrue(reply["teams"][2]["absent"])

    def test_practice_is_not_ranked(self) -> None:
        self.over(play_match())
        self.assertTrue(
            all(
                row["absent"]
                for row in self.rest("get", "/api/standings").json()["teams"]
            )
        )

    def test_the_freeze_hides_what_came_later_from_all_but_the_teacher(self) -> None:
        make_grading("amber", 1)
        freeze = timezone.now()
        make_grading("amber", 2)
        with hall_with(freeze=freeze):
            self.assertEqual(self.rows()[0], (1, "amber", 1))
            self.assertTrue(self.rest("get", "/api/standings").json()["frozen"])
            for path in ("/", "/screen"):
                self.assertContains(self.client_of("amber").get(path), "Frozen since")
            self.assertNotContains(self.teacher().get("/"), "Frozen since")
            self.assertContains(self.teacher().get("/"), "2 of 2")
            self.assertContains(self.teacher().get("/screen"), "Frozen since")

    def test_an_unveiling_shows_what_it_names(self) -> None:
        """An unveiling ends the freezes before it only, and does not affect contests or
        the secret draw."""
        make_grading("amber", 1)
        freeze = timezone.now()
        make_grading("amber", 2)
        make_grading("birch", 1, is_secret=True)
        contest = contest_of(freeze=freeze)
        Reveal.objects.create(at=freeze - timezone.timedelta(seconds=1))
        Reveal.objects.create(contest=contest)
        Reveal.objects.create(contest=contest, what=Reveal.SECRET)
        with hall_with(freeze=freeze):
            self.assertEqual(self.rows()[0], (1, "amber", 1))
            Reveal.objects.create()
            reply = self.rest("get", "/api/standings").json()
            self.assertEqual(
                (self.rows()[0], reply["frozen"], reply["secret"]),
                ((1, "amber", 2), None, False),
            )
            Reveal.objects.create(what=Reveal.SECRET)
            self.assertEqual(
                self.rows(), [(1, "birch", 1), (2, "amber", 0), (2, "cedar", 0)]
            )
            self.assertTrue(self.rest("get", "/api/standings").json()["secret"])

    def test_a_final_table_says_which_hand_ins_are_not_graded(self) -> None:
        """Teams without a grade are listed as such, and not as absent."""
        for name in ("amber", "birch"):
            work = make_grading(name, is_secret=True)
        Grading.objects.filter(pk=work.pk).update(state=machine.LOST)
        client = self.teacher()
        form = {"contest": "", "what": Reveal.SECRET}
        name = "&lt;script&gt;alert(1)&lt;/script&gt; Łódź"
        output = f"The last hand-ins of these teams are not graded: {name}"
        response = client.post("/teacher/standings/reveal/add/", form)
        self.assertContains(response, output)
        self.assertFalse(Reveal.objects.exists())
        client.post("/teacher/standings/reveal/add/", {**form, "anyway": "on"})
        self.assertTrue(Reveal.objects.exists())
        self.assertContains(
            self.client_of("amber").get("/"),
            f'<p class="refusal" role="alert">{output}</p>',
        )
        self.assertEqual(
            [
                (row["team"], row["place"], row["graded"], row["absent"])
                for row in self.rest("get", "/api/standings").json()["teams"]
            ],
            [
                ("amber", 1, True, False),
                ("birch", 2, False, False),
                ("cedar", 2, True, True),
            ],
        )
        table = client.get("/teacher/standings.csv").content.decode().splitlines()
        self.assertEqual(
            [row.partition(",")[0] for row in table[1:]], ["1", "not graded", "absent"]
        )

    def test_who_may_see_them(self) -> None:
        self.assertEqual(
            [Client().get(path).status_code for path in ("/", "/screen")], [302, 302]
        )
        self.assertEqual(Client().get("/api/standings").status_code, 401)
        with hall_with(public=True):
            self.assertEqual(
                [
                    Client().get(path).status_code
                    for path in ("/", "/screen", "/api/standings")
                ],
                [200] * 3,
            )

    def test_tables_are_made_once_however_often_they_are_asked_for(self) -> None:
        record = {
            **settings.CACHES,
            "default": {"BACKEND": "django.core.cache.backends.locmem.LocMemCache"},
        }
        with self.settings(CACHES=record), mock.patch.object(
            team_tables, "tables", wraps=team_tables.tables
        ) as made:
            for name in ("amber", "birch", "cedar"):
                self.rest("get", "/api/standings", name)
            self.assertEqual(made.call_count, 1)
            self.teacher().get("/")
            self.assertEqual(made.call_count, 2)

    def test_hidden_teams(self) -> None:
        Team.objects.filter(name="cedar").update(hidden=True)
        self.assertEqual([row[1] for row in self.rows()], ["amber", "birch"])
        self.assertContains(self.teacher().get("/teacher/standings.csv"), "cedar")

    def test_the_table_for_a_gradebook(self) -> None:
        make_grading("amber", 1)
        client = self.teacher()
        self.assertContains(client.get("/"), 'href="/teacher/standings.csv"')
        table = client.get("/teacher/standings.csv").content.decode().splitlines()
        self.assertEqual(
            table[:2],
            [
                "place,team,name,solved,matches,moves,lost,ring:5: solved,ring:5: matches",
                "1,amber,amber,1,2,7,0,1,2",
            ],
        )

    def test_tables_have_no_formulas(self) -> None:
        Team.objects.filter(name="amber").update(display="=1+1")
        self.assertContains(self.teacher().get("/teacher/standings.csv"), ",'=1+1,")
        with tempfile.TemporaryDirectory() as folder:
            sheet = pathlib.Path(folder) / "keys.csv"
            keys.write_sheet(sheet, [("amber", "=1+1", "amber.token")])
            self.assertEqual(
                sheet.read_text(), "team,name,token\namber,'=1+1,amber.token\n"
            )
        self.assertEqual(
            self.client_of("amber").get("/teacher/standings.csv").status_code, 302
        )

    def test_languages(self) -> None:
        client = self.client_of("amber")
        for language, word in (
            ("de", "Tabelle"),
            ("fr", "Classement"),
            ("en", "Standings"),
        ):
            client.post("/language/setlang/", {"language": language, "next": "/"})
            self.assertContains(client.get("/"), f"<h1>{word}</h1>")


class Contests(Hall):
    """A contest is a window with networks and a table of its own."""

    def status_of(self, contest: Any, name: str = "amber") -> int:
        """What a team is answered that hands in a program for a contest."""
        return int(self.hand_in(b"x", name, contest=contest).status_code)

    def test_any_number_of_hand_ins_while_it_goes_on(self) -> None:
        contest = contest_of()
        for _ in range(settings.HALL.hand_ins.a_day + 2):
            self.assertEqual(self.status_of(contest.pk), 201)
            Grading.objects.update(state=machine.OVER)
            taking.submissions.clear()
        hour = timezone.timedelta(hours=1)
        Contest.objects.update(
            start=timezone.now() + hour, end=timezone.now() + 2 * hour
        )
        self.assertEqual(self.status_of(contest.pk), 403)
        self.assertEqual(self.rest("get", "/api/contests").json()[0]["networks"], [])
        self.assertEqual(
            self.client_of("amber").get(f"/contests/{contest.pk}").status_code, 404
        )
        Contest.objects.update(
            start=timezone.now() - 2 * hour, end=timezone.now() - hour
        )
        self.assertEqual(
            (self.status_of(contest.pk), self.status_of(contest.pk + 1)), (403, 404)
        )
        # its hand-ins take none of those of the course
        self.assertEqual(
            taking.left_today(self.team("amber")), settings.HALL.hand_ins.a_day
        )

    def test_a_team_may_have_a_deadline_of_its_own(self) -> None:
        contest = contest_of()
        self.assertEqual(
            (self.status_of(contest.pk), self.status_of(contest.pk, "birch")),
            (201, 201),
        )
        now = timezone.now()
        minute = timezone.timedelta(minutes=1)
        Contest.objects.update(end=now - minute)
        Extension.objects.create(
            team=self.team("amber"), contest=contest, until=now + minute
        )
        self.assertEqual(
            (self.status_of(contest.pk), self.status_of(contest.pk, "birch")),
            (201, 403),
        )
        self.assertContains(
            self.client_of("amber").get("/hand-ins"), "finale</bdi></small></h2>"
        )
        # the secret draw comes for each team once it can hand in no more
        self.assertEqual(
            [taking.grade_secretly(now), taking.grade_secretly(now)], [1, 0]
        )
        self.assertEqual(taking.grade_secretly(now + 2 * minute), 1)
        self.assertEqual(
            [
                grading.hand_in.team.name
                for grading in Grading.objects.filter(is_secret=True).order_by("pk")
            ],
            ["birch", "amber"],
        )

    def test_all_teams_have_one_secret_draw_and_contests_have_different_ones(
        self,
    ) -> None:
        first = contest_of()
        second = contest_of()
        draw = [
            grading_work.drawn_from(make_grading(name, is_secret=True, contest=contest))
            for contest in (first, second, None)
            for name in ("amber", "birch")
        ]
        self.assertEqual((draw[0], draw[2], draw[4]), (draw[1], draw[3], draw[5]))
        self.assertEqual(len(set(draw)), 3)
        self.assertEqual(
            len(
                {
                    grading_work.drawn_from(make_grading("amber", contest=first))
                    for _ in range(2)
                }
            ),
            2,
        )

    def test_its_table_freezes_and_is_unveiled_by_itself(self) -> None:
        contest = contest_of()
        make_grading("amber", 1, contest=contest)
        Contest.objects.update(freeze=timezone.now())
        make_grading("birch", 2, contest=contest)
        path = f"/api/contests/{contest.pk}"

        def unveil() -> Any:
            return [
                row["team"]
                for row in self.rest("get", path).json()["teams"]
                if not row["absent"]
            ]

        self.assertEqual(unveil(), ["amber"])
        for page in (f"/contests/{contest.pk}", f"/contests/{contest.pk}/screen"):
            self.assertContains(self.client_of("amber").get(page), "Frozen since")
            self.assertContains(self.client_of("amber").get(page), "torus with a map")
        self.assertContains(self.teacher().get(f"/contests/{contest.pk}"), "2 of 2")
        self.assertContains(
            self.teacher().get(f"/teacher/contests/{contest.pk}.csv"), "1,birch,"
        )
        Reveal.objects.create()
        self.assertEqual(unveil(), ["amber"])
        Reveal.objects.create(contest=contest)
        self.assertEqual(unveil(), ["birch", "amber"])
        self.assertTrue(
            all(
                row["absent"]
                for row in self.rest("get", "/api/standings").json()["teams"]
            )
        )

    def test_the_form_refuses_what_cannot_be(self) -> None:
        client = self.teacher()
        now = timezone.localtime()

        def plan(networks: Any, hours: int, length: int, freeze: int = 0) -> int:
            row: Dict[str, Any] = {"name": "x", "networks": networks}
            for name, moment in (
                ("start", hours),
                ("end", hours + length),
                ("freeze", freeze),
            ):
                at = now + timezone.timedelta(hours=moment)
                row.update(
                    {f"{name}_0": f"{at:%Y-%m-%d}", f"{name}_1": f"{at:%H:%M:%S}"}
                    if moment
                    else {}
                )
            client.post("/teacher/handins/contest/add/", row)
            return Contest.objects.count()

        for refusal in (
            (["ring of five"], 1, 1),
            ([], 1, 1),
            (["ring of 5"], -1, 3),
            (["ring of 5"], 2, -1),
            (["ring of 5"], 1, 1, 9),
        ):
            self.assertEqual(plan(*refusal), 0, refusal)
        self.assertEqual(plan(["ring of 5", "torus with a map"], 1, 2, 2), 1)
        self.assertEqual(
            Contest.objects.get().networks, ["ring of 5", "torus with a map"]
        )
