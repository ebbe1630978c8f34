"""Exercises: each solution is right, what one begins with is not, and each wrong answer
here gets a sentence that names its cause."""
import os
import sys
import time
from typing import Any, Dict, List, Tuple
from unittest import mock

from arena_lab.__main__ import main
from arena_lab.course import answers
from arena_lab.course.answers import Answer, check_answer
from arena_lab.course import exercises
from arena_lab.course.exercises import CLIENT, Exercise
from arena_lab.play.agent_files import AGENTS
from arena_lab.play.teams import OUTSIDE, AgentWords
from arena_lab.rules.model import Match
from arena_lab.search.history_tree import NoFunctionError
from tests.support.output import InTemporary, run_call

# exercise -> (old text, new text, message): changes of its solution
WRONG: Dict[str, List[Tuple[str, str, str]]] = {
    "1-enter-and-look": [
        ("agent.enter(key)\n", "", "your agent never entered"),
        ("here = agent.look()\nprint(here.ports, file=sys.stderr)\n", "", "not look"),
    ],
    "2-two-answers": [
        ("here = agent.depart(0)\n", "", "never departed"),
        ("agent.write(here.board, str(here.came))\n", "", "wrote nothing there"),
        ("str(here.came)", '"0"', "and wrote '0': `came` is the port of the node"),
        ("agent.depart(0)", "agent.depart(7)", "NoSuchPort: port (agent.py, line 9)"),
    ],
    "3-compare-and-write": [
        ("if swap.written:", "if True:", "were answered `changed`"),
        ("range(5)", "range(4)", "shows '8' in the end and not '10'"),
    ],
    "4-walk-round": [
        ("    here = agent.depart(1 - here.came)", "    break", "was not home again"),
        ("nodes = 1\n", "nodes = 0\n", "is each counted once"),
    ],
    "5-two-sides": [
        (
            'swap = agent.write("", "taken")\nside = 0 if swap.written else 1\n',
            "side = 0\n",
            "only the whiteboard can part them",
        ),
        (
            'swap = agent.write("", "taken")\nside = 0 if swap.written else 1\n',
            'side = 1 if agent.look().board else 0\nagent.write("", "taken")\n',
            "before either had written",
        ),
    ],
    "6-cautious-step": [
        ("if swap.written:", "if True:", "3 agents were lost in the same black hole"),
        ('    agent.write(here.board, "safe")\n', "", "who is back writes 'safe'"),
    ],
    "7-triangle": [
        ("side = 0 if swap.written else 1", "side = 0", "both agents were lost"),
        ("agent.accuse(1 - side)", "agent.leave()", "nobody accused"),
        ("agent.accuse(1 - side)", "agent.accuse(side)", "leads to a safe node"),
    ],
    "8-why-no-clock": [
        (
            "here = agent.depart(side)\nagent.depart(here.came)\n",
            "for _ in range(9):\n    agent.look()\n",
            "without having gone anywhere",
        ),
        ("agent.accuse(1 - side)", "agent.leave()", "nobody accused"),
    ],
    "9-every-schedule": [
        (
            "        if swap.written:\n            return board\n",
            "        return board\n",
            "is answered `changed`, and goes on",
        ),
        (
            "(0 if swap.written else 1)",
            "0",
            "only one of them may take a side",
        ),
        ("agent.accuse(ahead)", "agent.leave()", "nobody accused"),
        ("nodes - 2", "nodes - 3", "accused a safe link"),
        (
            "        board = swap.board\n        if swap.written:",
            "        board = swap.board\n        while not swap.written:\n"
            "            swap = agent.write(swap.board, board_of(safe))\n"
            "            board = swap.board\n        if True:",
            "what the other agent has noted is gone",
        ),
    ],
    "10-halves": [
        ("self.left() // 2\n        walker", "self.left()\n        walker", "lost"),
        ("            if not self.divide():", "            if True:", "nobody accused"),
        ("if self.left() == 1:", "if self.left() == 2:", "accused a safe link"),
    ],
}


class Exercises(InTemporary):
    def setUp(self) -> None:
        super().setUp()
        self.addCleanup(os.chdir, os.getcwd())
        os.chdir(self.folder)
        text = (AGENTS / CLIENT).read_text(encoding="utf-8")
        (self.folder / CLIENT).write_text(text, encoding="utf-8")

    def findings(self, exercise: Exercise, agent: str) -> List[str]:
        """Returns the findings of a check."""
        (self.folder / exercises.AGENT).write_text(agent, encoding="utf-8")
        return self.answer(exercise).lines

    def answer(self, exercise: Exercise, **extra: Any) -> Answer:
        """Checks the program in the folder."""
        words = exercise.command.replace("python3", sys.executable)
        extra = {"may_run_inside": True, **extra}
        return check_answer(exercise, AgentWords(OUTSIDE, words), **extra)

    def test_no_program_runs_in_a_process_that_does_not_allow_it(self) -> None:
        """The process of a trial in a hall has no sandbox of its own."""
        exercise = exercises.read_exercise("9-every-schedule")
        agent = (exercise.folder / exercise.paths[1]).read_text(encoding="utf-8")
        note = "import os\nopen(f'{os.getpid()}.pid', 'w').close()\n"
        (self.folder / exercises.AGENT).write_text(note + agent, encoding="utf-8")
        lines = self.answer(exercise, may_run_inside=False).lines
        self.assertIn("cannot be tried", lines[0])
        self.assertFalse((self.folder / f"{os.getpid()}.pid").exists())
        self.assertGreater(len(list(self.folder.glob("*.pid"))), 0)
        self.answer(exercise)
        self.assertTrue((self.folder / f"{os.getpid()}.pid").exists())

    def test_they_are_in_order_and_whole(self) -> None:
        result = exercises.exercises()
        self.assertEqual(list(result), list(WRONG))
        for name, first in result.items():
            with self.subTest(name):
                self.assertEqual(list(first.files()), [exercises.AGENT, CLIENT])
                for text in (first.title, first.text, first.hint):
                    self.assertTrue(text.isprintable())

    def test_solutions_are_right_and_what_one_begins_with_is_not(self) -> None:
        for name, first in exercises.exercises().items():
            with self.subTest(name):
                self.assertEqual(self.findings(first, first.solution()), [])
                self.assertNotEqual(
                    self.findings(first, first.files()[exercises.AGENT]), []
                )

    def test_wrong_answers_get_a_sentence_that_names_the_cause(self) -> None:
        for name, first in exercises.exercises().items():
            for right, wrong, sentence in WRONG[name]:
                with self.subTest(name, sentence=sentence):
                    solution = first.solution()
                    self.assertEqual(solution.count(right), 1)
                    output = self.findings(first, solution.replace(right, wrong))
                    self.assertTrue(output)
                    self.assertIn(sentence, output[0])

    def test_a_search_that_does_not_end_well_is_no_praise(self) -> None:
        exercise = exercises.read_exercise("9-every-schedule")
        (self.folder / exercises.AGENT).write_text(
            exercise.solution(), encoding="utf-8"
        )
        every = "every schedule of ring:4"
        with mock.patch.object(answers, "MAX_STATES", 9):
            output = self.answer(exercise).lines
        self.assertIn(
            f"{every} cannot be tried: there are more than 9 states", output[0]
        )
        for wrong, sentence in (
            (lambda *_, **__: time.sleep(30), "could not be tried in the time"),
            (
                NoFunctionError("it says another line"),
                "cannot be tried: it says another",
            ),
        ):
            with mock.patch.object(answers, "explore_games", side_effect=wrong):
                output = self.answer(exercise, seconds=0).lines
            self.assertIn(f"{every} {sentence}", output[0])
        self.assertIn("and under every schedule of ring:4", exercise.praise())

    def test_a_script_that_fails_under_some_schedule_is_played_by_itself(self) -> None:
        """It goes back by port 1, which leads back in the matches that are drawn; each
        schedule is tried inside the lab, and the one that fails outside."""
        exercise = exercises.read_exercise("7-triangle")
        agent = exercise.solution().replace("depart(here.came)", "depart(1 - side)")
        self.assertIn("(under a schedule of ring:3)", self.findings(exercise, agent)[0])
        record = self.answer(exercise).record
        self.assertEqual({agent.kind for agent in record.schedule.agents}, {OUTSIDE})
        self.assertTrue(record.has_failed)

    def test_agents_that_chance_parts_are_told_by_all_matches_together(self) -> None:
        """Two agents that write take the two sides in each match, but not always the
        same ones: no whiteboard has parted them."""
        exercise = exercises.read_exercise("5-two-sides")
        records = []
        for first in (0, 1):
            match = Match(exercise.fixture(exercise.matches[0]).setup)
            for agent, port in enumerate((first, 1 - first)):
                for command in (
                    {"do": "enter", "key": f"k{agent}"},
                    {"do": "write", "expect": "", "put": f"k{agent}"},
                    {"do": "depart", "port": port},
                ):
                    match.reply_to(agent, command)
            self.assertEqual(exercise.check(match), [])
            records.append((match, ["k0", "k1"]))
        self.assertEqual(exercise.check_all(records[:1]), [])
        self.assertIn("went through different ports", exercise.check_all(records)[0])

    def test_the_command_tries_every_schedule(self) -> None:
        words = ["exercise", "9-every-schedule", "--folder", "a folder"]
        run_call(main, words)
        status, output, _ = run_call(main, words)
        self.assertEqual(status, 1)
        self.assertIn("has noted is gone; change your own number alone", output)
        self.assertIn("(under a schedule of ring:4)", output)

    def test_the_command_writes_checks_and_says_what_is_wrong(self) -> None:
        name = next(iter(WRONG))
        self.assertIn("Enter and look", run_call(main, ["exercise"]).output)
        self.assertIn(
            f"Complete {name}/agent.py", run_call(main, ["exercise", name]).output
        )
        status, output, _ = run_call(main, ["exercise", name])
        self.assertEqual(status, 1)
        self.assertIn("To mend first: your agent never entered", output)
        agent = self.folder / name / exercises.AGENT
        agent.write_text(exercises.read_exercise(name).solution(), encoding="utf-8")
        status, output, _ = run_call(main, ["exercise", name])
        self.assertEqual((status, output), (0, "Right in its match.\n"))
        self.assertIn(
            "Three lines", run_call(main, ["exercise", name, "--hint"]).output
        )
        status, _, errors = run_call(main, ["exercise", "no"])
        self.assertEqual(status, 2)
        self.assertIn("there are 1-enter-and-look, ", errors)
