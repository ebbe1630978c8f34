"""Parts of replays are read as they grow: whole lines alone, and since when a match
runs."""
import os
import time
from typing import Optional

from arena_lab.pages.feeds import MatchFeed
from arena_lab.rules.model import Match, Setup, spell
from arena_lab.rules.networks import ring
from tests.support.output import InTemporary


class Feeds(InTemporary):
    def setUp(self) -> None:
        super().setUp()
        self.part = self.folder / "m0.jsonl.part"
        self.match = Match(Setup(3, ring(3).links, 0, [2], 2, 10, 8))
        self.feed = MatchFeed(str(self.part.with_name("m")), 0)

    def text(self) -> str:
        return "".join(
            spell(line) + "\n" for line in [self.match.head(), *self.match.log]
        )

    def begin(self, at: int) -> None:
        """A part that was written at this second, and read."""
        self.part.write_text(self.text())
        os.utime(self.part, (at, at))
        self.feed.look()

    def start_of_turns(self) -> Optional[float]:
        """Since when turns go on, by what was written now."""
        self.part.write_text(self.text())
        self.feed.look()
        return self.feed.since

    def test_no_turn_passes_while_the_server_waits_for_agents(self) -> None:
        self.begin(1000)
        self.match.reply_to(0, {"do": "enter"})
        self.assertIsNone(self.start_of_turns())
        self.match.reply_to(1, {"do": "enter"})
        since = self.start_of_turns()
        self.assertLess(abs((since or 0) - time.time()), 60)
        self.match.reply_to(0, {"do": "look"})
        self.assertEqual(self.start_of_turns(), since)

    def test_turns_go_on_when_a_match_has_gathered_for_long_enough(self) -> None:
        self.feed = MatchFeed(str(self.part.with_name("m")), 0, gather=30)
        self.begin(1000)
        self.assertEqual(self.feed.since, 1030)

    def test_what_the_server_says_of_turns_tells_since_when(self) -> None:
        """The server's lines give the start of turns to a projector that was started
        late, and in matches that do not gather."""
        self.feed = MatchFeed(str(self.part.with_name("m")), 0, pause=0.5)
        self.match.reply_to(0, {"do": "enter"})
        self.part.with_name("m0.turns.part").write_text("0\n")
        self.assertIsNone(self.start_of_turns())
        self.part.with_name("m0.turns.part").write_text("2000\n")
        self.assertLess(abs((self.start_of_turns() or 0) - time.time() + 1000), 60)

    def test_the_last_turn_is_the_last_whole_line_that_the_server_wrote(self) -> None:
        for name, text, turn in (
            ("m1.turns", "7\n", None),
            ("m0.turns", "", None),
            ("m0.turns", "0\n4294967295\n12", 4294967295),
            ("m0.turns.part", "0\n" * 99 + "522\n", 522),
        ):
            self.part.with_name(name).write_text(text)
            self.assertEqual(self.feed.turn(), turn)

    def test_another_contest_runs_since_it_began(self) -> None:
        self.feed = MatchFeed(str(self.part.with_name("m")), 0, gather=0)
        self.begin(1000)
        self.part.rename(self.part.with_suffix(".old"))
        self.assertGreater(self.start_of_turns() or 0, 2000)

    def test_a_line_that_is_not_whole_waits(self) -> None:
        self.match.reply_to(0, {"do": "enter"})
        self.part.write_text(self.text()[:-1])
        self.feed.look()
        self.assertEqual(self.feed.match and self.feed.match.log, [])
        self.part.write_text(self.text())
        self.feed.look()
        self.assertEqual(self.feed.match and self.feed.match.log, self.match.log)

    def test_a_part_that_is_shorter_now_begins_anew(self) -> None:
        self.match.reply_to(0, {"do": "enter"})
        for _ in range(4):
            self.match.reply_to(0, {"do": "look"})
        self.begin(1000)
        self.match = Match(self.match.setup)
        self.part.write_text(self.text())
        self.feed.look()
        self.assertEqual(self.feed.match and self.feed.match.log, [])
