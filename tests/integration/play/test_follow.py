"""A find is never lost: its limit is part of the schedule, and a mended program follows
it as far as it goes along."""
import shutil
from typing import Tuple

from arena_lab.__main__ import main
from arena_lab.play.schedules import read_schedule
from arena_lab.support.built import TOP
from tests.support.matches import AGENTS, InFolder
from tests.support.output import run_call

# computes for a second of the processor's time, and then searches
SLOW = """
import time
import ring


def search(agent, key, nodes):
    begun = time.process_time()
    while time.process_time() - begun < 1:
        pass
    ring.search(agent, key, nodes)
"""
TOO_SLOW = "has computed for 0.3 s, and neither sends nor waits"


class Follows(InFolder):
    def setUp(self) -> None:
        super().setUp()
        self.agent = self.folder / "agent.py"
        for name in ("client.py", "ring.py"):
            shutil.copy(AGENTS / name, self.folder)

    def output(self, *words: str) -> Tuple[int, str]:
        status, output, _ = run_call(main, [*words, "--engine", "model"])
        return status, output

    def test_what_is_found_with_a_limit_is_kept_with_it(self) -> None:
        self.agent.write_text(SLOW)
        team = (
            "--network",
            "ring:3",
            "--hole",
            "1",
            "--agent",
            f"{self.agent} {{nodes}}",
            "--timeout",
            "0.3",
        )
        for words in (
            ("run",),
            ("hunt", "--runs", "2", "--database", str(self.folder / "database")),
            ("explore", "--search", "model"),
        ):
            with self.subTest(words[0]):
                out = self.folder / words[0]
                status, output = self.output(*words, *team, "--keep", str(out))
                self.assertEqual(
                    (status, output.count(TOO_SLOW) > 0), (1, True), output
                )
                self.assertEqual(read_schedule(out / "schedule.txt").limit, 0.3)
                _, again = self.output("replay", str(out))
                self.assertIn(TOO_SLOW, again)
                self.assertIn("the replay is the same, byte for byte", again)
                # whoever has a slower machine gives more
                _, longer = self.output(
                    "replay", str(out), "--timeout", "60", "--follow"
                )
                self.assertNotIn(TOO_SLOW, longer)

    def test_a_mended_program_is_tried_against_what_it_failed_under(self) -> None:
        shutil.copy(
            TOP / "examples" / "agents" / "faulty" / "reads_once.py", self.agent
        )
        out = self.folder / "out"
        status, _ = self.output(
            "run",
            "--network",
            "ring:8",
            "--agent",
            f"{self.agent} {{nodes}}",
            "--runs",
            "30",
            "--keep",
            str(out),
        )
        self.assertEqual(status, 1)
        whole = len(read_schedule(out / "schedule.txt").choices)
        status, output = self.output("replay", str(out), "--follow")
        self.assertEqual(
            (status, output.splitlines()[0]),
            (1, f"followed all {whole} choices of the schedule"),
        )
        shutil.copy(AGENTS / "ring.py", self.agent)
        status, output = self.output(
            "replay", str(out), "--follow", "--keep", str(self.folder / "mended")
        )
        self.assertEqual(status, 0, output)
        self.assertRegex(
            output,
            r"^followed \d+ of \d+ choices: the next is `.*fair choices came then\nsolved moves",
        )
        self.assertIn(
            "the replay is the same",
            self.output("replay", str(self.folder / "mended"))[1],
        )
