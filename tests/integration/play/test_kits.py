"""The kits of four languages are written, built and played; `python3 -m
tests.release.kits PROGRAM` plays all. Kits whose clients say by which line they send are
built and played, too."""
import subprocess

from arena_lab.course import sender_marks
from arena_lab.play.agent_files import AGENTS
from arena_lab.play.games import play_seed
from arena_lab.play.kits import KITS
from arena_lab.play.runners import LocalRunner
from arena_lab.play.teams import OUTSIDE, AgentWords, Game
from arena_lab.rules.networks import ring
from tests.support.kits_played import PlayedKit
from tests.support.matches import program
from tests.support.output import InTemporary
from tools import packages
from arena_lab.submissions import submission


class TestKits(InTemporary):
    def play(self, language: str) -> None:
        absent = packages.missing(KITS[language].packages)
        if absent:
            self.skipTest(f"Debian's {', '.join(absent)} is not installed")
        PlayedKit(language, self.folder, program()).all()

    def lines(self, language: str, agent: str) -> None:
        """Each event of a match has the line of the kit's agent that sent it."""
        absent = packages.missing(KITS[language].packages)
        if absent:
            self.skipTest(f"Debian's {', '.join(absent)} is not installed")
        kit = submission.read_paths([AGENTS / language], AGENTS)
        marked_value = sender_marks.mark_program(kit, 5)
        self.assertNotEqual(marked_value, kit)
        for name in marked_value.entries:
            marked_value.write_file(name, self.folder)
        if KITS[language].build:
            words = KITS[language].build.split()
            subprocess.run(words, cwd=self.folder, check=True, capture_output=True)
        first = AgentWords(
            OUTSIDE,
            f"{KITS[language].play} {{host}} {{port}} {{key}} {{nodes}}",
            runner_for=lambda _: LocalRunner(str(self.folder)),
        )
        match = play_seed(Game("ring:5", ring(5), [first] * 2), "fair", 0, None).match
        self.assertEqual(match.faults, [])
        _, places = sender_marks.split_errors(match.errors)
        text = (AGENTS / language / agent).read_text(encoding="utf-8").splitlines()
        log = match.match.log
        for event, by in zip(log, sender_marks.along(log, places)):
            if event["do"] in ("deliver", "close"):
                continue
            call = "join" if event["do"] == "enter" else event["do"]
            self.assertEqual(by.file, agent, event)
            self.assertRegex(text[by.line - 1], rf"\b(agent_)?{call}\(", event)

    def test_lines_in_c(self) -> None:
        self.lines("c", "careful.c")

    def test_lines_in_cpp(self) -> None:
        self.lines("cpp", "careful.cpp")

    def test_lines_in_javascript(self) -> None:
        self.lines("javascript", "careful.js")

    def test_python(self) -> None:
        self.play("python")

    def test_c(self) -> None:
        self.play("c")

    def test_javascript(self) -> None:
        self.play("javascript")

    def test_wasm(self) -> None:
        self.play("wasm")
