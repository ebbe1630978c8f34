"""What a page of a match holds. How the page looks and steps is for
tests/browser/match_in_browser.py."""
import json
import re
import sys
from unittest import mock

from arena_lab.__main__ import main
from arena_lab.pages import match_page
from arena_lab.rules.model import Match, Setup
from tests.support.output import InTemporary, run_call

TRIANGLE = [(0, 0, 1, 0), (1, 1, 2, 0), (2, 1, 0, 1)]
HOSTILE = "</script><b>\u202e{{title}}"

# a fake arena that takes its answers from files in its folder
ARENA = f"""#!{sys.executable}
import pathlib, sys
answers = pathlib.Path(__file__).parent / sys.argv[1]
if not answers.exists():
    print(sys.argv[2] + ": end", file=sys.stderr)
    sys.exit(3)
sys.stdout.buffer.write(answers.read_bytes())
"""


def ended_match() -> Match:
    match = Match(Setup(3, TRIANGLE, 0, [2], 2, 10, 64))
    match.reply_to(0, {"do": "enter"})
    match.reply_to(0, {"do": "write", "expect": "", "put": HOSTILE})
    match.reply_to(0, {"do": "depart", "port": 1})
    match.deliver(0)
    match.close()
    return match


class Pages(InTemporary):
    def setUp(self) -> None:
        super().setUp()
        self.program = self.folder / "arena"
        self.program.write_text(ARENA)
        self.program.chmod(0o755)
        self.replay = self.folder / "match.jsonl"
        self.replay.write_text(ended_match().replay(), encoding="utf-8")
        patch = mock.patch.object(
            match_page, "layout", lambda head: [[0, 0]] * head["nodes"]
        )
        patch.start()
        self.addCleanup(patch.stop)

    def answers(self, **answers: str) -> None:
        for word, text in answers.items():
            (self.folder / word).write_text(text, encoding="utf-8")

    def write_page(self, *words: str) -> int:
        status, _, self.errors = run_call(
            main, ["page", str(self.replay), "--program", str(self.program), *words]
        )
        return status

    def data(self) -> dict:
        text = (self.folder / "match.html").read_text(encoding="utf-8")
        return json.loads(
            re.search(
                r'<script type="application/json" id="data">(.*?)</script>', text, re.S
            )[1]
        )

    def test_a_page_holds_the_events_the_pasts_and_the_verdict(self) -> None:
        self.answers(judge="silent moves 1 lost 1\n", explain="0 {}\n1 {}\n3 {}\n")
        self.assertEqual(self.write_page(), 0)
        data = self.data()
        self.assertEqual(data["verdict"], "silent moves 1 lost 1")
        self.assertEqual(data["match"]["events"], "e0,w0:0:1,d0:1,v0,c")
        self.assertEqual(data["match"]["texts"], ["", HOSTILE])
        self.assertEqual(data["pasts"], {"0": [[0, 2], [1, 1]]})

    def test_no_text_ends_its_element(self) -> None:
        self.answers(judge="silent moves 1 lost 1\n", explain="")
        self.write_page()
        text = (self.folder / "match.html").read_text(encoding="utf-8")
        self.assertEqual(text.count("</script>"), 2)
        self.assertNotIn("\u202e", text)
        self.assertNotIn("http:", text.replace("http://www.w3.org/2000/svg", ""))
        self.assertNotIn("https:", text)

    def test_a_refused_replay_is_refused_with_its_line(self) -> None:
        self.assertEqual(self.write_page(), 3)
        self.assertEqual(
            self.errors,
            f"{self.replay}: end: it stops before its end line, or goes on behind it\n",
        )
        self.assertFalse((self.folder / "match.html").exists())

    def test_a_twin_stands_beside_its_match(self) -> None:
        lines = (
            ended_match().replay().replace('"holes":[2]', '"holes":[1]').splitlines()
        )
        twin = "\n".join(lines[:4] + lines[5:-1] + ['{"end":4}']) + "\n"
        self.answers(judge="silent moves 1 lost 0\n", explain="", twin=twin)
        self.assertEqual(self.write_page("--twin", "1"), 0)
        self.assertEqual(self.data()["twin"]["struck"], [3])
        self.assertEqual(self.data()["twin"]["head"]["holes"], [1])

    def test_a_replay_of_version_1(self) -> None:
        lines = [
            '{"agents":1,"board":8,"hole":null,"home":0,"links":[],"nodes":3,"quota":10,"replay":1}',
            '{"end":0}',
        ]
        head = match_page.read_replay(lines)["head"]
        self.assertEqual((head["holes"], head["dark"], head["replay"]), ([], [], 2))
