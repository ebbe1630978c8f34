"""Links that show a match on the page that plays in the browser."""
import base64
import json
import random
import unittest
import zlib

from arena_lab.__main__ import main
from arena_lab.pages import links
from arena_lab.support.built import TOP
from tests.support.output import InTemporary, run_call

REPLAY = TOP / "examples" / "first0.jsonl"
ADDRESS = "https://example.org/play/index.html"


def shared_by(link: str) -> object:
    """Returns the object that a link holds."""
    fragment = link.partition("#")[2]
    archive = base64.urlsafe_b64decode(fragment + "=" * (-len(fragment) % 4))
    return json.loads(zlib.decompress(archive))


class Links(InTemporary):
    def test_a_link_holds_the_replay(self) -> None:
        replay = REPLAY.read_bytes()
        link = links.replay_link(ADDRESS, replay)
        self.assertTrue(link.startswith(f"{ADDRESS}#"))
        self.assertRegex(link, r"#[\w-]+$")
        self.assertLess(len(link), 1000)
        self.assertEqual(
            shared_by(link), {"version": 1, "replay": replay.decode("utf-8")}
        )

    def test_a_replay_that_is_too_long_is_refused(self) -> None:
        noise = random.Random(1).randbytes(links.MAX_LINK).hex().encode()
        with self.assertRaisesRegex(links.LongLinkError, "and 8,000 are the most"):
            links.replay_link(ADDRESS, noise)

    def test_the_command_prints_it_and_writes_nothing(self) -> None:
        words = ["page", str(REPLAY), "--link", ADDRESS, "--engine", "model"]
        status, output, errors = run_call(main, words)
        self.assertEqual((status, errors), (0, ""))
        self.assertEqual(output, f"{links.replay_link(ADDRESS, REPLAY.read_bytes())}\n")
        self.assertFalse(REPLAY.with_suffix(".html").exists())

    def test_what_is_no_replay_gets_no_link(self) -> None:
        file = self.folder / "damaged.jsonl"
        file.write_text(REPLAY.read_text()[:-30])
        words = ["page", str(file), "--link", ADDRESS, "--engine", "model"]
        status, output, errors = run_call(main, words)
        self.assertNotEqual(status, 0)
        self.assertEqual(output, "")
        self.assertIn("damaged", errors)

    def test_a_link_is_of_one_replay(self) -> None:
        for words in (["--out", "x.html"], ["--twin", "3"], ["p"]):
            with self.subTest(words):
                line = ["page", str(REPLAY), *words, "--link", ADDRESS]
                status, output, errors = run_call(main, line)
                self.assertEqual((status, output), (2, ""))
                self.assertIn("--link prints a link to one REPLAY", errors)


if __name__ == "__main__":
    unittest.main()
