"""Teaches to write agents step by step. An exercise has a text and a program to complete,
and its check says what is wrong.

    ./arena-lab exercise                        lists the exercises
    ./arena-lab exercise 1-enter-and-look       writes its files to the folder of this name, and says what to do
    ./arena-lab exercise 1-enter-and-look       once the folder is there: checks the program in it
    ./arena-lab exercise 1-enter-and-look --hint

Complete `agent.py` in the folder, and call the same command again. It plays the matches
of the exercise by the Python model of the lab; the first sentence names what to mend
first. The exit status is 0 if the program is right, and 1 if it is not. The page of a
hall on which one writes has the same exercises.
"""
import argparse
import contextlib
import pathlib
import textwrap

import arena_lab
from arena_lab.course.answers import check_answer
from arena_lab.course import exercises
from arena_lab.course.exercises import AGENT, Exercise
from arena_lab.play.teams import OUTSIDE, AgentWords
from arena_lab.support.faults import ArenaError

WIDE = 100


def add_arguments(parser: argparse.ArgumentParser) -> None:
    """Adds the arguments of `exercise`."""
    parser.add_argument(
        "name", metavar="NAME", nargs="?", default="", help="the name of an exercise"
    )
    parser.add_argument(
        "--folder",
        metavar="FOLDER",
        type=pathlib.Path,
        help="where its files are, or are to be (the name)",
    )
    parser.add_argument("--hint", action="store_true", help="print its hint")
    parser.add_argument(
        "--keep",
        metavar="FOLDER",
        type=pathlib.Path,
        help="write the match that shows what to mend there",
    )


def run(args: argparse.Namespace) -> int:
    all_exercises = exercises.exercises()
    if not args.name:
        for name, chosen in all_exercises.items():
            print(f"{name:22}{chosen.title}")
        return 0
    if args.name not in all_exercises:
        raise ArenaError(
            f"{args.name}: there is no such exercise; there are {', '.join(all_exercises)}"
        )
    exercise = all_exercises[args.name]
    folder = args.folder or pathlib.Path(args.name)
    if args.hint:
        print(textwrap.fill(exercise.hint, WIDE))
        return 0
    if not folder.exists():
        return begin(exercise, folder)
    return check(exercise, folder, args.keep)


def begin(exercise: Exercise, folder: pathlib.Path) -> int:
    """Writes what one begins with."""
    folder.mkdir(parents=True)
    for name, text in exercise.files().items():
        (folder / name).write_text(text, encoding="utf-8")
    again = f"{arena_lab.command_name()} exercise {exercise.name}"
    print(f"{exercise.title}\n\n{textwrap.fill(exercise.text, WIDE)}\n")
    print(f"Complete {folder / AGENT}, and check it by `{again}`")
    return 0


def check(exercise: Exercise, folder: pathlib.Path, keep: pathlib.Path) -> int:
    """Checks what stands in a folder."""
    agent = AgentWords(OUTSIDE, exercise.command)
    with contextlib.chdir(folder):
        answer = check_answer(exercise, agent, may_run_inside=True)
    if not answer.lines:
        print(exercise.praise())
        return 0
    print("\n  ".join([f"To mend first: {answer.lines[0]}", *answer.lines[1:]]))
    if keep:
        print(answer.record.keep(keep)[-1])
    return 1
