"""Whether REST is as its file says."""
import re
from typing import Dict

from tests.integration.hall.hall_pages import (
    Hall,
    contest_of,
    make_grading,
    hall_with,
    play_match,
)

from arena_lab.course.trials import bound_report
from arena_lab.course.mistaken_lines import LineMark
from arena_lab.hall.attempts.models import Attempt
from arena_lab.hall.hall_files import EditorRules
from arena_lab.hall.drafts.models import Trial

FOUND = bound_report({"right": False, "said": ["wrong"]})


class Documented(Hall):
    """REST is as its file says."""

    def test_each_answer_is_as_the_file_says(self) -> None:
        import jsonschema

        document = self.rest("get", "/api/openapi.json", "").json()
        self.over(play_match())
        self.running(play_match())
        self.rest("post", "/api/matches", body={"network": "torus with a map"})
        contest = contest_of()
        make_grading("amber", contest=contest)
        hall = hall_with(editor=EditorRules(["python"], 20, 60, 2, 500, 0))
        hall.start()
        self.addCleanup(hall.stop)
        trial = Trial.objects.create(
            team=self.team("amber"),
            language="python",
            kind="play",
            network="ring of 5",
            files={"a.py": ""},
            size=1,
            found={**FOUND, "marks": [LineMark("a.py", 1, "wrong", 0)._asdict()]},
        )
        answers = {
            "/networks": {},
            "/matches": {},
            "/standings": {},
            "/hand-ins": {},
            "/contests": {},
            "/drafts": {},
            "/trials": {},
            "/space": {},
        }
        numbers = [attempt.pk for attempt in Attempt.objects.all()]
        paths: Dict[str, str] = {
            **{path: path for path in answers},
            "/openapi.json": "/openapi.json",
            **{f"/matches/{number}": "/matches/{id}" for number in numbers},
            f"/contests/{contest.pk}": "/contests/{id}",
            "/drafts/python": "/drafts/{language}",
            f"/trials/{trial.pk}": "/trials/{id}",
            f"/trials/{trial.pk}/files": "/trials/{id}/files",
        }
        for path, name in paths.items():
            reply = self.rest("get", f"/api{path}")
            schema = document["paths"][name]["get"]["responses"]["200"]["content"][
                "application/json"
            ]["schema"]
            with self.subTest(path):
                jsonschema.validate(
                    reply.json(), {**schema, "components": document["components"]}
                )

    def test_each_path_stands_in_the_file(self) -> None:
        from arena_lab.hall.urls import API

        document = self.rest("get", "/api/openapi.json", "").json()
        results = {
            "/"
            + re.sub(
                "<(?:number|language):(number|match|language)>",
                lambda it: "{id}" if it[1] == "number" else f"{{{it[1]}}}",
                str(entry.pattern),
            )
            for entry in API
        }
        self.assertEqual(set(document["paths"]), results)
