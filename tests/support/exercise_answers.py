"""Answers to the exercises, right ones and wrong ones by mistakes that students make: the
files of tests/lab/course/answers. Nobody looked at those that are kept out while the
checks of the exercises were written."""
import contextlib
import pathlib
import sys
import tempfile
import tomllib
from typing import Iterator, List, NamedTuple

from arena_lab.course.answers import check_answer, play_match
from arena_lab.course import exercises
from arena_lab.course.exercises import AGENT, Exercise
from arena_lab.play.games import Record
from arena_lab.play.teams import OUTSIDE, AgentWords

FOLDER = pathlib.Path(__file__).parents[1] / "lab" / "course" / "answers"
# how an answer of a few commands begins
HEAD = """import sys

from client import Agent

agent = Agent.connect(sys.argv[1], int(sys.argv[2]))
key = sys.argv[3]

"""


class ExerciseAnswer(NamedTuple):
    """A right or wrong program for an exercise, with a sentence on what the program does.
    Nobody wrote a check by programs that are kept out."""

    exercise: Exercise
    is_right: bool
    why: str
    agent: str
    is_kept_out: bool

    def __str__(self) -> str:
        return f"{self.exercise.name}: {self.why}"


def answers() -> Iterator[ExerciseAnswer]:
    """All answers of the files. One that changes the solution says which texts of it
    become which."""
    for name, exercise in exercises.exercises().items():
        text = (FOLDER / f"{name}.toml").read_text(encoding="utf-8")
        for kind, rows in tomllib.loads(text).items():
            for row in rows:
                agent = HEAD + row.get("agent", "")
                if "changes" in row:
                    agent = exercise.solution()
                for old, new in row.get("changes", []):
                    if agent.count(old) != 1:
                        raise ValueError(f"{name}, {row['why']}: {old!r} is not there")
                    agent = agent.replace(old, new)
                is_kept_out = row.get("is_kept_out", False)
                yield ExerciseAnswer(
                    exercise, kind == "right", row["why"], agent, is_kept_out
                )


@contextlib.contextmanager
def answer_folder(exercise: Exercise, agent: str) -> Iterator[AgentWords]:
    """Makes a temporary folder with an answer's program the working folder, and gives
    the words that start the program."""
    with tempfile.TemporaryDirectory() as folder, contextlib.chdir(folder):
        for name, text in {**exercise.files(), AGENT: agent}.items():
            pathlib.Path(name).write_text(text, encoding="utf-8")
        words = exercise.command.replace("python3", sys.executable)
        yield AgentWords(OUTSIDE, words)


def findings(exercise: Exercise, agent: str) -> List[str]:
    """Returns what the check of an exercise finds to mend in a program, which is played
    by the model of the lab."""
    with answer_folder(exercise, agent) as words:
        return check_answer(exercise, words, may_run_inside=True).lines


def records(exercise: Exercise, agent: str) -> List[Record]:
    """All matches of an exercise, whatever the program does wrong in them."""
    with answer_folder(exercise, agent) as words:
        return [play_match(exercise, match, words, None) for match in exercise.matches]
