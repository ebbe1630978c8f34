"""Hand-ins: what is taken, what a team sees of them, and when they are graded."""
import re
from typing import Any, List
from unittest import mock

from arena_lab.hall import machine
from tests.integration.hall.hall_pages import (
    PLACE,
    Hall,
    make_grading,
    hall_with,
    play_match,
)
from tests.lab.submissions.test_uploads import zip_of

from django.conf import settings
from django.core.files.uploadedfile import SimpleUploadedFile
from django.utils import timezone

from arena_lab.hall import packing
from arena_lab.hall.attempts.models import Attempt
from arena_lab.hall.handins import grading_work, taking, views
from arena_lab.hall.handins.models import Grading, HandIn
from arena_lab.hall.standings.models import Reveal
from arena_lab.hall.teams.models import Team


class HandIns(Hall):
    def test_a_hand_in_waits_to_be_graded(self) -> None:
        hand = self.hand_in(b"print()")
        self.assertEqual(
            (hand.status_code, hand.json()["state"], hand.json()["result"]),
            (201, "waiting", None),
        )
        self.assertEqual(
            (HandIn.objects.get().folder / "files" / "agent.py").read_bytes(),
            b"print()",
        )
        self.assertEqual(
            self.rest("get", f"/api/hand-ins/{hand.json()['id']}", "birch").status_code,
            404,
        )
        self.assertEqual(
            self.rest("get", f"/api/hand-ins/{hand.json()['id']}").status_code, 200
        )

    def test_a_team_sees_its_place_in_the_queue(self) -> None:
        """A second hand-in comes after first hand-ins of other teams, and a running
        grading has no place."""
        order = ("amber", "amber", "birch")
        numbers = [self.hand_in(b"print()", name).json()["id"] for name in order]

        def places() -> List[Any]:
            rows = zip(order, numbers)
            paths = [(f"/api/hand-ins/{number}", name) for name, number in rows]
            return [self.rest("get", *words).json()["place"] for words in paths]

        self.assertEqual(places(), [1, 3, 2])
        page = self.client_of("amber").get("/hand-ins")
        self.assertContains(page, "waits to be graded, place 3 in the queue")
        Grading.objects.filter(hand_in=numbers[0]).update(state=machine.RUNNING)
        self.assertEqual(places(), [None, 2, 1])

    def test_a_hand_in_has_a_page_with_its_sources(self) -> None:
        self.hand_in(
            zip_of({"agent.py": b"print('<script>')", "more/data.bin": b"\xff\xfe"})
        )
        path = f"/hand-ins/{HandIn.objects.get().pk}"
        for client in (self.client_of("amber"), self.teacher()):
            self.assertContains(client.get(path), "print(&#x27;&lt;script&gt;&#x27;)")
            self.assertContains(client.get(path), "more/data.bin")
        self.assertEqual(self.client_of("birch").get(path).status_code, 404)
        self.assertContains(self.client_of("amber").get("/hand-ins"), f'href="{path}"')
        self.assertContains(
            self.teacher().get("/teacher/handins/handin/"), f'href="{path}"'
        )

    def test_a_page_of_sources_is_made_once(self) -> None:
        self.hand_in(zip_of({"agent.py": "\u202e".encode() * 130_000}))
        path = f"/hand-ins/{HandIn.objects.get().pk}"
        with mock.patch.object(views, "as_seen", wraps=views.as_seen) as observations:
            for _ in range(5):
                self.assertContains(self.teacher().get(path), r"\u202e" * 2)
        self.assertEqual(observations.call_count, 2)

    def test_a_team_that_is_deleted_leaves_no_files(self) -> None:
        for name in ("amber", "birch"):
            self.assertEqual(self.hand_in(b"print()", name).status_code, 201)
        lost_folder, kept_folder = (
            HandIn.objects.get(team__name=name).folder for name in ("amber", "birch")
        )
        attempt = Attempt.objects.create(
            team=Team.objects.get(name="amber"), network="ring of 5"
        )
        attempt.folder.mkdir(parents=True)
        with self.captureOnCommitCallbacks(execute=True):
            team = Team.objects.get(name="amber")
            self.teacher().post(
                f"/teacher/teams/team/{team.pk}/delete/", {"post": "yes"}
            )
        self.assertEqual(
            [it.exists() for it in (lost_folder, attempt.folder, kept_folder)],
            [False, False, True],
        )

    def test_limits(self) -> None:
        self.assertEqual(
            [self.hand_in(b"x").status_code for _ in range(4)], [201, 201, 201, 429]
        )
        self.assertEqual(self.hand_in(b"x", "birch").status_code, 201)
        Grading.objects.update(state=machine.OVER)
        self.assertEqual(
            [self.hand_in(b"x").status_code for _ in range(3)], [201, 201, 201]
        )
        Grading.objects.update(state=machine.OVER)
        HandIn.objects.filter(team__name="amber").update(size=300 << 20)
        self.assertEqual(self.hand_in(b"x").status_code, 429)

    def test_many_small_files_take_what_they_take_of_the_disk(self) -> None:
        """A hundred files of a byte take a hundred blocks and inodes, more than 0.5
        MB; the team that has a MB left hands them in once."""
        Team.objects.filter(name="amber").update(disk=1)
        zip_bytes = zip_of(
            {"agent.py": b"x", **{f"file{number}": b"x" for number in range(99)}}
        )
        hand_ins = [self.hand_in(zip_bytes) for _ in range(2)]
        self.assertEqual([hand.status_code for hand in hand_ins], [201, 429])
        self.assertIn("matches and hand-ins 0.8", hand_ins[1].json()["error"])

    def test_times_name_their_zone(self) -> None:
        deadline = timezone.now() + timezone.timedelta(days=1)
        rules = settings.HALL.hand_ins._replace(deadline=deadline)
        local = timezone.localtime(deadline)
        with hall_with(hand_ins=rules):
            for language in ("en", "de", "fr"):
                client = self.client_of("amber")
                page = client.get("/hand-ins", HTTP_ACCEPT_LANGUAGE=language)
                self.assertContains(page, f"{local:%H:%M} {local:%Z}")
                self.assertContains(page, f" ({local:%Z})</th>")

    def test_what_cannot_start_is_refused_and_costs_no_try(self) -> None:
        """The kit under its own name, in a zip and by itself, and without its client."""
        kit = b"import sys\nfrom client import Agent\n"
        for payload, sentence in (
            (
                zip_of({"careful.py": kit, "client.py": b""}),
                "it has no agent.py, which is started: call careful.py so",
            ),
            (zip_of({"a.txt": b"x"}), "it has no agent.py, which is started at its"),
            (zip_of({"agent.py": kit}), "client.py is not there: hand in a zip of"),
            (kit, "agent.py imports client, and client.py is not there"),
        ):
            hand = self.hand_in(payload)
            self.assertEqual(hand.status_code, 400)
            self.assertIn(sentence, hand.json()["error"])
        self.assertEqual(HandIn.objects.count(), 0)
        whole = zip_of({"agent.py": kit, "client.py": b""})
        self.assertEqual(self.hand_in(whole).status_code, 201)

    def test_a_zip_that_is_refused_leaves_nothing(self) -> None:
        hand = self.hand_in(zip_of({"../../evil.py": b"x"}))
        self.assertEqual((hand.status_code, HandIn.objects.count()), (400, 0))
        self.assertEqual(list((PLACE.folder / "hand-ins").iterdir()), [])
        page = self.client_of("amber").post(
            "/hand-ins/take", {"file": SimpleUploadedFile("x", b"")}
        )
        self.assertEqual(page.status_code, 400)

    def test_after_the_deadline_nothing_is_taken_and_the_last_is_graded_secretly(
        self,
    ) -> None:
        for _ in range(2):
            self.assertEqual(self.hand_in(b"x").status_code, 201)
        with hall_with(
            hand_ins=settings.HALL.hand_ins._replace(deadline=timezone.now())
        ):
            self.assertEqual(self.hand_in(b"x").status_code, 403)
            later = timezone.now() + timezone.timedelta(seconds=1)
            self.assertEqual(
                [taking.grade_secretly(later), taking.grade_secretly(later)], [1, 0]
            )
        secret = Grading.objects.get(is_secret=True)
        self.assertEqual(secret.hand_in, HandIn.objects.order_by("-pk").first())
        # nothing of it is told before the teacher shows it
        Grading.objects.filter(pk=secret.pk).update(
            state=machine.OVER, solved=77, matches=77
        )
        texts = [
            self.client_of("amber").get(path).content
            for path in ("/hand-ins", "/", "/api/standings", "/api/hand-ins")
        ]
        self.assertNotIn(
            b"77", b"".join(re.sub(rb"[\w]{40,}", b"", text) for text in texts)
        )
        Reveal.objects.create(what=Reveal.SECRET)
        self.assertContains(self.client_of("amber").get("/"), "77 of 77")

    def test_a_network_of_a_file_is_called_by_its_name(self) -> None:
        word = "/srv/course/n.toml"
        conditions = settings.HALL.hand_ins._replace(networks={word: "n.toml"})
        Grading.objects.filter(pk=make_grading("amber").pk).update(
            networks={word: [1, 2]}
        )
        with hall_with(hand_ins=conditions):
            reply = self.rest("get", "/api/hand-ins").json()[0]["result"]
            table = self.rest("get", "/api/standings").json()
        self.assertEqual(reply["networks"], {"n.toml": [1, 2]})
        self.assertEqual(table["networks"], ["n.toml"])
        self.assertEqual(table["teams"][0]["cells"], [{"solved": 1, "matches": 2}])

    def test_all_bytes_of_a_team_count(self) -> None:
        """Sources, results and matches: who is over is told so before anything is
        written, files of practice go first, and the teacher gives more."""
        work = make_grading("amber")
        # the hand-in's file takes a block and an inode
        full = (200 << 20) - work.hand_in.size - 2 * packing.BLOCK
        Grading.objects.filter(pk=work.pk).update(size=full - 10)
        hand = self.hand_in(b"print('much more')")
        self.assertEqual((hand.status_code, HandIn.objects.count()), (429, 1))
        self.assertIn("your team has 200 MB: trials take 0.0", hand.json()["error"])
        request = self.rest("post", "/api/matches", body={"network": "ring of 5"})
        self.assertEqual(request.status_code, 201)
        self.assertEqual(self.hand_in(b"print()", "birch").status_code, 201)
        self.assertContains(
            self.teacher().get("/teacher/teams/team/"),
            '<td class="field-used_megabytes">199</td>',
        )
        Team.objects.filter(name="amber").update(disk=201)
        self.assertEqual(self.hand_in(b"print('much more')").status_code, 201)
        Team.objects.filter(name="amber").update(disk=None)
        over = self.over(play_match())
        Attempt.objects.filter(pk=over.pk).update(size=5 << 20)
        Grading.objects.filter(pk=work.pk).update(size=198 << 20)
        self.assertEqual(self.hand_in(b"print()").status_code, 201)
        self.assertFalse(over.folder.exists())

    def test_matches_that_are_over_are_kept_compressed(self) -> None:
        """Compressed files are served unchanged."""
        match = play_match()
        for _ in range(200):
            match.reply_to(0, {"do": "look"})
        attempt = self.over(match)
        position = attempt.matches.get().replay
        text = position.read_bytes()
        before = packing.size_of(attempt.folder)
        self.assertLess(packing.pack(attempt.folder) * 2, before)
        self.assertFalse(position.exists())
        packed_size = packing.packed_path(position).stat().st_size
        self.assertLess(packed_size * 5, len(text))
        reply = self.rest("get", f"/api/matches/{attempt.pk}").json()["matches"][0]
        self.assertEqual(reply["after"]["holes"], [3])
        page = self.client_of("amber").get(f"/matches/{attempt.pk}/0/replay")
        self.assertEqual(b"".join(page.streaming_content), text)

    def test_a_grading_at_once_has_the_room_that_is_left(self) -> None:
        """And one by the secret draw all that a course gives."""
        self.hand_in(b"print()")
        work = Grading.objects.get()
        for usage, is_secret, expectation in (
            (100, False, "team_space = 99\n"),
            (400, False, "team_space = 16\n"),
            (400, True, ""),
        ):
            Grading.objects.filter(pk=work.pk).update(size=usage << 20)
            work.is_secret = is_secret
            folder = work.hand_in.folder / f"{usage}{is_secret}"
            grading_work.prepare(work, folder)
            result = re.findall("team_space.*\n", (folder / "course.toml").read_text())
            self.assertEqual("".join(result), expectation)

    def test_results_are_those_of_ones_own_team(self) -> None:
        self.hand_in(b"x")
        grading = Grading.objects.get()
        out = grading.folder / "out"
        (out / "failed" / "amber-0").mkdir(parents=True)
        (out / "team-amber.html").write_text("<script>1</script>")
        (out / "failed" / "amber-0" / "match0.jsonl").write_text("{}")
        (out / "runs.csv").write_text("run")
        path = f"/hand-ins/{grading.hand_in_id}/result/"
        client = self.client_of("amber")
        self.assertEqual(client.get(path).status_code, 404)
        Grading.objects.update(state=machine.OVER)
        page = client.get(path)
        self.assertEqual(b"".join(page.streaming_content), b"<script>1</script>")
        self.assertIn("sandbox", page["Content-Security-Policy"])
        self.assertEqual(
            client.get(f"{path}failed/amber-0/match0.jsonl").status_code, 200
        )
        for second in (
            "secret.txt",
            "runs.csv",
            "../secret.txt",
            "failed/../../secret.txt",
            "failed/amber-0/..",
            "failed/amber-0",
        ):
            self.assertEqual(client.get(path + second).status_code, 404, second)
        self.assertEqual(self.client_of("birch").get(path).status_code, 404)
