"""The page of a match is the same, whether the program or the Python model judges and
explains it."""
import random

from arena_lab.__main__ import main
from arena_lab.command_line import statuses
from arena_lab.pages import match_page
from arena_lab.play import schedulers
from tests.support.matches import (
    KNOWN_MAP,
    MAP,
    RING,
    InFolder,
    network_fixture,
    play_fixture,
    program,
    ring_fixture,
)
from tests.support.output import run_call


class Pages(InFolder):
    def test_the_model_says_what_the_program_says(self) -> None:
        rng = random.Random(7)
        matches = [
            (ring_fixture(8, 5, rng), RING),
            (network_fixture(rng), MAP),
            (network_fixture(rng), KNOWN_MAP),
        ]
        for number, (fixture, agent) in enumerate(matches):
            path = self.folder / f"{number}.jsonl"
            path.write_bytes(
                play_fixture(fixture, agent, number, schedulers.slow_agents).replay
            )
            pages = [
                match_page.page_of(match_page.data_of(engine, path, None))
                for engine in (None, program())
            ]
            self.assertEqual(pages[0], pages[1])

    def test_a_refusal_has_a_status_that_the_help_tells(self) -> None:
        replay = play_fixture(ring_fixture(4, 2, random.Random(1)), RING, 0).replay
        second = replay.replace(b'"ports":2', b'"ports":3', 1)
        path = self.folder / "match.jsonl"
        by_program = ["--program", program()]
        for text, engine, status in (
            (b"", by_program, 3),
            (b"", ["--engine", "model"], 3),
            (second, by_program, 4),
            (None, by_program, 6),
            (None, ["--engine", "model"], 2),
        ):
            path.unlink(missing_ok=True)
            if text is not None:
                path.write_bytes(text)
            with self.subTest(status=status, engine=engine):
                result, _, output = run_call(main, ["page", str(path), *engine])
                self.assertEqual(result, status, output)
                self.assertIn(status, statuses.statuses("page"))
