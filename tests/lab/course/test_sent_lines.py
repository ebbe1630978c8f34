"""Which line sent a command, of what programs and their clients write; programs write
such marks themselves, too."""
import tarfile
import unittest

from arena_lab.course import sender_marks
from arena_lab.course.mistaken_lines import place_in
from arena_lab.course.sender_marks import NOWHERE, SentBy
from arena_lab.play.agent_files import AGENTS
from arena_lab.submissions.submission import Submission, SubmissionEntry

TRACEBACK = """Traceback (most recent call last):
  File "/agent/agent.py", line 9, in <module>
    search(agent)
  File "/agent/agent.py", line 4, in search
    agent.depart(9)
  File "/agent/client.py", line 200, in depart
client.NoSuchPort: port
"""


def of(**texts: str) -> Submission:
    """Builds a hand-in from texts; `_` in a keyword stands for `.`."""
    return Submission(
        {
            name.replace("_", "."): SubmissionEntry(tarfile.REGTYPE, text.encode())
            for name, text in texts.items()
        }
    )


class SentLines(unittest.TestCase):
    def test_marks_are_parted_from_what_the_program_wrote(self) -> None:
        text = "\x1e1 a.py:3\nmine\n\\x1e2 b.py:4\n\x1e3 ../x:1\n\x1e4 a.py\n\x1ex"
        writing, places = sender_marks.split_errors({1: text, 0: ""})
        rest = "mine\n\x1e3 ../x:1\n\x1e4 a.py\n\x1ex"
        self.assertEqual(writing, {0: "", 1: rest})
        self.assertEqual(places, {0: [], 1: [SentBy("a.py", 3), SentBy("b.py", 4)]})

    def test_events_keep_their_lines_if_the_first_marks_were_cut(self) -> None:
        _, places = sender_marks.split_errors({0: "\x1e2 a.py:5\n"})
        log = [
            {"do": "enter", "agent": 0},
            {"do": "depart", "agent": 0},
            {"do": "deliver", "agent": 0},
            {"do": "look", "agent": 1},
            {"do": "look", "agent": 0},
            {"do": "close"},
        ]
        result = sender_marks.along(log, places)
        rest = [NOWHERE] * 4
        self.assertEqual(result, [NOWHERE, SentBy("a.py", 5), *rest])

    def test_forged_numbers_take_no_memory(self) -> None:
        _, places = sender_marks.split_errors({0: "\x1e99999 a.py:1\n"})
        self.assertEqual(len(places[0]), 99_999)
        _, places = sender_marks.split_errors({0: "\x1e9999999999 a.py:1\n"})
        self.assertEqual(places[0], [])

    def test_a_client_that_is_not_the_kits_is_left_as_it_is(self) -> None:
        for name in ("client_py", "client_js", "client_h", "client_c", "client_hpp"):
            conditions = of(**{name: "mine", "agent_py": "x"})
            self.assertEqual(sender_marks.mark_program(conditions, 4), conditions)
        client = (AGENTS / "client.py").read_text()
        kit = of(client_py=client, agent_py="SILENT")
        hand_in = sender_marks.mark_program(kit, 4)
        self.assertIn(
            b"dump_traceback_later(4)", hand_in.content_of("client.py") or b""
        )
        self.assertEqual(hand_in.content_of("agent.py"), b"SILENT")

    def test_the_place_of_an_error_is_the_agents_own(self) -> None:
        conditions = of(agent_py="", client_py="")
        self.assertEqual(place_in(TRACEBACK, conditions), ("agent.py", 4))
        gcc = "agent.c:7:3: error: x\nagent.c:9:1: error: y\n"
        self.assertEqual(place_in(gcc, of(agent_c="")), ("agent.c", 7))
        self.assertIsNone(place_in(gcc, conditions))
        own = 'File "/usr/lib/python3.11/json/decoder.py", line 7'
        self.assertIsNone(place_in(own, conditions))
