"""What teams write in the browser: by the page and by REST, as a team, two members of it,
another team and a stranger ask."""
import datetime
import json
import shutil
import tarfile
from typing import Any, Dict
from unittest import mock

from tests.integration.hall.hall_pages import PLACE, Hall, hall_with

from django.db import connection
from django.test import Client
from django.utils import timezone

from arena_lab.hall import backup, keys, machine
from arena_lab.hall.attempts import asking
from arena_lab.hall.hall_files import EditorRules
from arena_lab.hall.drafts import guests, trying, writing
from arena_lab.hall.drafts.models import Draft, Trial
from arena_lab.hall.handins.models import HandIn
from arena_lab.hall.packing import BLOCK
from arena_lab.hall.teams.models import Team
from arena_lab.play.agent_files import AGENTS

RULES = EditorRules(["python", "c"], 20, 60, 2, 500, 0)
FILES = {"agent.py": "print(1)\n", "client.py": "x\n"}
TRIED = {"language": "python", "kind": "play", "network": "ring of 5", "files": FILES}


class DraftFile(Hall):
    def setUp(self) -> None:
        super().setUp()
        writing.saves.clear()
        hall = hall_with(editor=RULES)
        hall.start()
        self.addCleanup(hall.stop)
        self.addCleanup(shutil.rmtree, PLACE.folder / "trials", True)

    def put_draft(self, files: Any, version: Any, name: str = "amber") -> Any:
        body = {"files": files, "version": version}
        return self.rest("put", "/api/drafts/python", name, body)

    def tries(self, name: str = "amber", **args: Any) -> Any:
        return self.rest("post", "/api/trials", name, {**TRIED, **args})

    def over(self, number: int, **args: Any) -> Trial:  # type: ignore[override]
        """Creates a finished trial with a page."""
        folder = PLACE.folder / "trials" / str(number)
        folder.mkdir(parents=True)
        (folder / "m0.html").write_text("<script>watch()</script>")
        (folder / "m0.jsonl").write_text("a replay\n")
        results: Dict[str, Any] = {"right": True, "verdict": "solved", "said": []}
        rows = Trial.objects.filter(pk=number)
        rows.update(
            **{
                "state": machine.OVER,
                "has_page": True,
                "found": results,
                "size": 9_000,
                **args,
            }
        )
        return rows.get()


class Drafts(DraftFile):
    def test_a_draft_is_the_kit_at_first_and_then_what_was_written(self) -> None:
        reply = self.rest("get", "/api/drafts/python").json()
        self.assertEqual(list(reply["files"]), ["agent.py", "client.py"])
        kit = (AGENTS / "python" / "careful.py").read_text()
        self.assertEqual(reply["files"]["agent.py"], kit)
        self.assertEqual((reply["version"], reply["main"]), (0, "agent.py"))
        self.assertEqual(self.put_draft(FILES, 0).json()["version"], 1)
        reply = self.rest("get", "/api/drafts/python").json()
        self.assertEqual((reply["files"], reply["version"]), (FILES, 1))
        # no other team has it
        second = self.rest("get", "/api/drafts/python", "birch").json()
        self.assertEqual(second["version"], 0)
        kits = self.rest("get", "/api/drafts").json()
        self.assertEqual([kit["language"] for kit in kits], ["python", "c"])

    def test_two_members_lose_nothing_of_each_other(self) -> None:
        mine = {**FILES, "agent.py": "mine"}
        theirs = {**FILES, "agent.py": "theirs"}
        self.assertEqual(self.put_draft(mine, 0).status_code, 200)
        self.assertEqual(self.put_draft(theirs, 0).status_code, 409)
        self.assertEqual(Draft.objects.get().files, mine)
        # the same again is no change, whatever its version
        self.assertEqual(self.put_draft(mine, 0).json()["version"], 1)
        self.assertEqual(self.put_draft(theirs, 1).json()["version"], 2)

    def test_what_is_no_draft_is_refused(self) -> None:
        wrong = [
            *({name: "x"} for name in ("", "..", "../a.py", "a/b.py", ".x", "-x")),
            *({name: "x"} for name in ("a" * 61, "ä.py", "a b", "a\0")),
            {f"a{number}": "x" for number in range(13)},
            {"a.py": "\0"},
            {"a.py": "\ud800"},
            {"a.py": 1},
            {},
            [],
            "x",
            None,
        ]
        for files in wrong:
            with self.subTest(repr(files)[:60]):
                self.assertEqual(self.put_draft(files, 0).status_code, 400)
                self.assertEqual(self.tries(files=files).status_code, 400)
        self.assertEqual(self.put_draft({"a.py": "x" * 131_073}, 0).status_code, 413)
        deep = self.rest("put", "/api/drafts/python").status_code
        self.assertEqual(deep, 400)
        self.assertEqual(self.put_draft({"a.py": "x" * 131_072}, 0).status_code, 200)
        for language in ("rust", "javascript", "x"):
            path = f"/api/drafts/{language}"
            self.assertEqual(self.rest("get", path).status_code, 404)
        self.assertEqual(Draft.objects.count(), 1)

    def test_a_team_that_saves_too_often_is_told_so(self) -> None:
        with mock.patch.object(writing.saves, "wait", return_value=1.0):
            self.assertEqual(self.put_draft(FILES, 0).status_code, 429)

    def test_what_is_written_and_tried_is_counted(self) -> None:
        team = self.team("amber")
        self.put_draft(FILES, 0)
        self.assertEqual(asking.own_bytes(team), 11)
        number = self.tries().json()["id"]
        self.assertEqual(asking.own_bytes(team), 22)
        self.over(number)
        self.assertEqual(asking.own_bytes(team), 9_011)
        team.disk = 0
        team.save()
        larger = {"a.py": "more than there was"}
        self.assertEqual(self.put_draft(larger, 1).status_code, 429)
        self.assertEqual(self.tries().status_code, 429)

    def test_a_team_whose_space_is_full_clears_it(self) -> None:
        """And is told what fills it; what was handed in stays."""
        team = self.team("amber")
        self.put_draft({"agent.py": "long text"}, 0)
        hand_in = HandIn.objects.create(team=team, name="a.py", size=1 << 20, files=1)
        number = self.tries().json()["id"]
        trial = self.over(number, size=200 << 20)
        reply = self.tries()
        self.assertEqual(reply.status_code, 429)
        self.assertIn("trials take 200.0, drafts 0.0, matches", reply.json()["error"])
        self.assertIn("hand-ins 1.0. Delete trials", reply.json()["error"])
        # what gets smaller is kept all the same
        self.assertEqual(self.put_draft({"agent.py": "short"}, 1).status_code, 200)
        space = self.rest("get", "/api/space").json()
        self.assertEqual(
            (space["limit"], space["trials"], space["drafts"], space["hand_ins"]),
            (200 << 20, 200 << 20, 5, (1 << 20) + 2 * BLOCK),
        )
        path = f"/api/trials/{number}"
        self.assertEqual(self.rest("delete", path, "birch").status_code, 404)
        self.assertTrue(trial.folder.exists())
        self.assertEqual(self.rest("delete", path).status_code, 204)
        self.assertFalse(trial.folder.exists())
        self.assertEqual(self.tries().status_code, 201)
        # one that is being tried stays, and what was deleted counts for the day
        second = Trial.objects.latest("pk").pk
        path = f"/api/trials/{second}"
        self.assertEqual(self.rest("delete", path).status_code, 409)
        self.assertEqual(self.rest("delete", "/api/trials").status_code, 204)
        numbers = [row["id"] for row in self.rest("get", "/api/trials").json()]
        self.assertEqual((numbers, Trial.objects.count()), ([second], 2))
        Trial.objects.filter(pk=second).update(state=machine.OVER)
        self.rest("delete", "/api/trials")
        self.assertEqual(self.rest("get", "/api/trials").json(), [])
        # the kit comes in the place of a draft
        self.assertEqual(self.rest("delete", "/api/drafts/python").status_code, 204)
        draft = self.rest("get", "/api/drafts/python").json()
        self.assertEqual(draft["version"], 3)
        self.assertNotIn("short", draft["files"].values())
        self.assertEqual(asking.own_bytes(team), hand_in.size + 2 * BLOCK)

    def test_a_copy_of_the_hall_has_drafts_and_trials(self) -> None:
        self.put_draft(FILES, 0)
        self.over(self.tries().json()["id"])
        archive = PLACE.folder.parent / "copy.tar.gz"
        self.addCleanup(archive.unlink)
        database = archive.with_name("empty.sqlite3")
        database.touch()
        self.addCleanup(database.unlink)
        with mock.patch.object(backup, "dump_database", return_value=database):
            backup.write(PLACE, archive)
        with tarfile.open(archive) as tar:
            names = tar.getnames()
        self.assertIn(f"{PLACE.folder.name}/trials/1/m0.html", names)
        self.assertIn("drafts_draft", connection.introspection.table_names())

    def test_what_was_written_is_handed_in(self) -> None:
        reply = self.rest("post", "/api/drafts/python/hand-in", body={"files": FILES})
        self.assertEqual(reply.status_code, 201)
        folder = HandIn.objects.get(pk=reply.json()["id"]).folder / "files"
        results = {path.name: path.read_text() for path in folder.iterdir()}
        self.assertEqual(results, FILES)
        # hand-ins are of Python here
        reply = self.rest("post", "/api/drafts/c/hand-in", body={"files": FILES})
        self.assertEqual(reply.status_code, 400)


class Trials(DraftFile):
    def test_what_cannot_be_tried_is_refused(self) -> None:
        for arguments in (
            {"kind": "no"},
            {"kind": None},
            {"network": "ring of 99"},
            {"network": ["ring of 5"]},
            {"scheduler": "mine.py:x"},
            {"scheduler": None},
            {"seed": -1},
            {"seed": 1_000_000},
            {"seed": "1"},
            {"seed": True},
            {"kind": "explore"},
            {"kind": "explore", "network": "ring:6"},
        ):
            with self.subTest(arguments):
                self.assertEqual(self.tries(**arguments).status_code, 400)
        self.assertEqual(self.tries(language="no").status_code, 404)
        self.assertEqual(Trial.objects.count(), 0)

    def test_a_team_has_one_at_a_time_and_some_a_day(self) -> None:
        first = self.tries()
        self.assertEqual(first.status_code, 201)
        reply = self.tries()
        # the page waits and asks again
        self.assertEqual((reply.status_code, reply["Retry-After"]), (429, "2"))
        self.assertEqual(self.tries("birch").status_code, 201)
        closing = self.rest("post", f"/api/trials/{first.json()['id']}/close").json()
        self.assertEqual(closing["state"], machine.CANCELLED)
        with hall_with(editor=RULES._replace(a_day=1)):
            reply = self.tries()
            self.assertIn("today", reply.json()["error"])
            self.assertNotIn("Retry-After", reply)
        self.assertEqual(self.tries(kind="explore", network="ring:4").status_code, 201)

    def test_of_old_trials_nothing_is_left(self) -> None:
        with mock.patch.object(trying, "MAX_TRIALS_KEPT", 2):
            folders = []
            for _ in range(4):
                result = self.over(self.tries().json()["id"])
                folders.append(result.folder)
            self.tries()
            self.assertEqual(
                [folder.exists() for folder in folders], [False, False, True, True]
            )
            record = self.rest("get", "/api/trials").json()
            self.assertEqual(len(record), 2 + 1)
            # they count for the day, and are gone the next
            self.assertEqual(Trial.objects.count(), 5)
            Trial.objects.update(
                asked=timezone.now() - timezone.timedelta(days=2), state=machine.OVER
            )
            self.tries()
            self.assertEqual(Trial.objects.count(), 3)

    def test_others_see_nothing_of_it(self) -> None:
        number = self.tries().json()["id"]
        self.over(number)
        rest = [f"/api/trials/{number}{it}" for it in ("", "/files", "/replay")]
        pages = [f"/write/trials/{number}/page"]
        for path in rest:
            reply = self.rest("get", path)
            self.assertEqual(reply.status_code, 200)
            self.assertEqual(self.rest("get", path, "birch").status_code, 404)
            self.assertEqual(self.rest("get", path, "").status_code, 401)
        path = f"/api/trials/{number}/close"
        self.assertEqual(self.rest("post", path, "birch").status_code, 404)
        for path in pages:
            reply = self.client_of("amber").get(path)
            self.assertEqual(reply.status_code, 200)
            self.assertEqual(self.client_of("birch").get(path).status_code, 404)
            self.assertEqual(Client().get(path).status_code, 404)
        # a session needs the secret of the page
        client = Client(enforce_csrf_checks=True)
        client.cookies = self.client_of("amber").cookies
        reply = client.post("/api/trials", json.dumps(TRIED), "application/json")
        self.assertEqual(reply.status_code, 403)

    def test_a_page_of_another_team_that_was_here_before_saves_nothing(self) -> None:
        """Birch logs in at the browser in which a page of amber is open, which then
        wrote amber's program over birch's draft."""
        body = json.dumps({"files": FILES, "version": 0})
        results = [
            self.client_of("birch").put(
                "/api/drafts/python", body, "application/json", HTTP_X_WRITER=writer
            )
            for writer in ("amber", "birch")
        ]
        self.assertEqual([reply.status_code for reply in results], [403, 200])
        self.assertIn("another team has logged in", results[0].json()["error"])

    def test_the_match_may_reach_nothing_and_stands_in_the_halls_page_alone(
        self,
    ) -> None:
        number = self.tries().json()["id"]
        self.over(number)
        reply = self.client_of("amber").get(f"/write/trials/{number}/page")
        policy = reply["Content-Security-Policy"]
        self.assertIn("sandbox allow-scripts; default-src 'none'", policy)
        self.assertIn("frame-ancestors 'self'", policy)
        self.assertEqual(reply["X-Frame-Options"], "SAMEORIGIN")
        self.assertEqual(self.rest("get", f"/api/trials/{number}").json()["id"], number)

    def test_matches_come_before_searches_and_leave_one_place(self) -> None:
        for name, kind, network in (
            ("amber", "check", "ring of 5"),
            ("birch", "explore", "ring:4"),
            ("cedar", "play", "ring of 5"),
        ):
            self.tries(name, kind=kind, network=network)
        self.assertEqual(
            [it.kind for it in trying.due(3, 3)], ["play", "check", "explore"]
        )
        self.assertEqual([it.kind for it in trying.due(2, 2)], ["play", "check"])
        Trial.objects.filter(kind="check").update(state=machine.RUNNING)
        self.assertEqual([it.kind for it in trying.due(2, 1)], ["play"])
        Trial.objects.filter(kind="play").delete()
        self.assertEqual([it.kind for it in trying.due(2, 1)], [])
        self.assertEqual([it.kind for it in trying.due(3, 2)], ["explore"])


class Teacher(DraftFile):
    def test_the_teacher_sees_and_stops_what_is_tried(self) -> None:
        number = self.tries().json()["id"]
        teacher = self.teacher()
        self.assertContains(teacher.get("/teacher/drafts/trial/"), "amber")
        request = {"action": "close", "_selected_action": [number]}
        teacher.post("/teacher/drafts/trial/", request)
        self.assertEqual(Trial.objects.get().state, machine.CANCELLED)
        page = f"/write/trials/{self.over(number).pk}/page"
        self.assertContains(teacher.get("/teacher/drafts/trial/"), page)
        self.assertEqual(teacher.get(page).status_code, 200)


class Guests(DraftFile):
    def setUp(self) -> None:
        super().setUp()
        guests.arrivals.clear()
        hall = hall_with(editor=RULES._replace(guests=4))
        hall.start()
        self.addCleanup(hall.stop)

    def guest(self, **args: Any) -> Client:
        client = Client(**args)
        self.assertContains(client.get("/write"), "Begin as a guest")
        self.assertEqual(client.post("/write/guest").status_code, 302)
        return client

    def sends(self, client: Client, path: str, body: Any) -> Any:
        return client.post(path, json.dumps(body), "application/json")

    def test_a_guest_writes_and_tries_and_does_nothing_else(self) -> None:
        client = self.guest()
        self.assertContains(client.get("/write"), "editor.js")
        reply = self.sends(client, "/api/trials", TRIED)
        self.assertEqual(reply.status_code, 201)
        path = f"/api/trials/{reply.json()['id']}"
        self.assertEqual(client.get(path).status_code, 200)
        self.assertEqual(self.guest().get(path).status_code, 404)
        reply = self.sends(client, "/api/drafts/python/hand-in", {"files": FILES})
        self.assertEqual(reply.status_code, 403)
        # guests have no access to anything else
        for path in (
            "/api/matches",
            "/api/networks",
            "/api/hand-ins",
            "/api/standings",
        ):
            self.assertEqual(client.get(path).status_code, 401, path)
        reply = self.sends(client, "/api/matches", {"network": "ring of 5"})
        self.assertEqual(reply.status_code, 401)
        for path in ("/matches", "/hand-ins", "/messages", "/"):
            self.assertEqual(client.get(path)["Location"], "/login", path)
        self.assertNotContains(self.client_of("amber").get("/"), "guest")
        self.assertNotContains(self.teacher().get("/"), "guest-")
        self.assertNotContains(self.teacher().get("/teacher/teams/team/"), "guest-")

    def test_they_are_bounded_by_address_and_in_all(self) -> None:
        def comes(address: str) -> int:
            response = Client(REMOTE_ADDR=address).post("/write/guest")
            return int(response.status_code)

        self.assertEqual([comes("10.0.0.1") for _ in range(3)], [302, 302, 429])
        rest = [comes("10.0.0.2"), comes("10.0.0.2"), comes("10.0.0.3")]
        self.assertEqual(rest, [302, 302, 429])
        # who writes nothing for a day makes room
        Draft.objects.update(at=timezone.now() - guests.STAYS * 2)
        self.assertEqual(comes("10.0.0.4"), 302)
        self.assertEqual(Team.objects.filter(is_guest=True).count(), 1)
        with hall_with(editor=RULES):
            self.assertEqual(comes("10.0.0.5"), 404)
            self.assertEqual(Client().get("/write")["Location"], "/login")

    def test_a_site_has_many_networks_and_who_is_idle_makes_room(self) -> None:
        def comes(address: str) -> int:
            response = Client(REMOTE_ADDR=address).post("/write/guest")
            return int(response.status_code)

        codes = [comes(f"2001:db8:1:{number}::1") for number in range(3)]
        self.assertEqual(codes, [302, 302, 429])
        rest = [comes("2001:db8:2::1"), comes("10.0.0.1"), comes("10.0.0.2")]
        self.assertEqual(rest, [302, 302, 429])
        first, second = Team.objects.filter(is_guest=True).order_by("pk")[:2]
        for team, hours in ((first, 2), (second, 3)):
            at = timezone.now() - datetime.timedelta(hours=hours)
            Draft.objects.filter(team=team).update(at=at)
        # whose program was tried is not idle
        Trial.objects.create(team=second, language="python", kind="play", files={})
        self.assertEqual([comes("10.0.0.3"), comes("10.0.0.4")], [302, 429])
        self.assertFalse(Team.objects.filter(pk=first.pk).exists())
        self.assertTrue(Team.objects.filter(pk=second.pk).exists())

    def test_a_class_comes_by_its_link_beside_strangers(self) -> None:
        rules = RULES._replace(guests=2, class_word="autumn-27", class_guests=25)
        with hall_with(editor=rules):
            for path in ("/class/autumn-28", "/class/guest"):
                self.assertEqual(Client().post(path).status_code, 404)
            self.assertContains(Client().get("/class/autumn-27"), "/class/autumn-27")
            codes = [Client().post("/class/autumn-27").status_code for _ in range(26)]
            self.assertEqual(codes, [302] * 25 + [429])
            self.guest()
        # a hall whose course has no word has no link
        for path in ("/class/", "/class/autumn-27"):
            self.assertEqual(Client().post(path).status_code, 404)

    def test_who_writes_on_a_machine_of_their_own_stays(self) -> None:
        owner = guests.owner()
        Draft.objects.create(team=owner, language="python", files=FILES, size=9)
        Draft.objects.update(at=timezone.now() - guests.STAYS * 9)
        self.assertEqual(guests.owner(), owner)
        self.guest()
        self.assertEqual(Draft.objects.filter(team=owner).count(), 1)

    def test_no_token_is_drawn_for_them(self) -> None:
        self.guest()
        path = PLACE.folder / "new.csv"
        self.assertEqual(keys.draw_missing(path), 0)
        self.assertFalse(path.exists())


class Page(DraftFile):
    def test_the_page_has_the_draft_and_frames_its_own_alone(self) -> None:
        self.put_draft({"agent.py": "</script><script>alert(1)</script>"}, 0)
        reply = self.client_of("amber").get("/write")
        self.assertNotContains(reply, "<script>alert(1)")
        self.assertContains(reply, "codemirror/lib/codemirror.js")
        self.assertIn("frame-src 'self'", reply["Content-Security-Policy"])
        self.assertIn("default-src 'none'", reply["Content-Security-Policy"])
        second = self.client_of("amber").get("/matches")
        self.assertNotIn("frame-src", second["Content-Security-Policy"])
        self.assertContains(second, "/write")

    def test_there_is_none_of_another_kit_or_without_an_editor(self) -> None:
        client = self.client_of("amber")
        self.assertEqual(client.get("/write?language=rust").status_code, 404)
        self.assertEqual(Client().get("/write").status_code, 302)
        with hall_with(editor=None):
            self.assertEqual(client.get("/write").status_code, 404)
            self.assertEqual(self.put_draft(FILES, 0).status_code, 404)
            self.assertEqual(self.tries().status_code, 404)
            self.assertNotContains(client.get("/matches"), "/write")

    def test_its_script_speaks_the_language_of_who_reads(self) -> None:
        client = self.client_of("amber")
        client.post("/language/setlang/", {"language": "de"})
        self.assertTrue("wartet" in client.get("/write").content.decode())
