"""Kits as they are written in the browser, and exercises, which are kits too: their
files, and the words that start their agents."""
import functools
import pathlib
from typing import Any, Dict, List, NamedTuple, Optional

from django.conf import settings
from django.utils.translation import gettext as _

from arena_lab.course.exercises import Exercise, exercises
from arena_lab.hall.attempts.asking import RequestRefusedError
from arena_lab.play.agent_files import AGENTS
from arena_lab.play.kits import KITS

# of each kit the files that are written, the first being the agent
SOURCES: Dict[str, List[str]] = {
    "python": ["careful.py", "../client.py"],
    "javascript": ["careful.js", "client.js", "package.json"],
    "c": ["careful.c", "client.c", "client.h", "Makefile"],
    "cpp": ["careful.cpp", "client.hpp", "Makefile"],
}
WORDS = "{host} {port} {key} {nodes}"
# seconds for a line, and for the first line of a program that is compiled first
LINE = 5
COMPILED_LINE = 20


class WrittenKit(NamedTuple):
    """A kit: its language, its name, its files, the words that start its agent, how many
    seconds an agent has for a line, and whether it is handed in here."""

    language: str
    name: str
    files: Dict[str, str]
    command: str
    line: int
    is_handed_in: bool

    @property
    def main(self) -> str:
        """The file of the agent."""
        return next(iter(self.files))


def languages() -> List[str]:
    """The kits with which teams may begin here."""
    rules = settings.HALL.editor
    return [] if rules is None else list(rules.languages)


@functools.lru_cache(maxsize=1)
def all_exercises() -> Dict[str, Exercise]:
    """Returns all exercises; they are part of the lab and are read once."""
    return exercises()


def exercise_of(language: Any) -> Optional[Exercise]:
    """Returns an exercise by name; None if it does not exist or the hall has no
    editor."""
    if settings.HALL.editor is None or not isinstance(language, str):
        return None
    return all_exercises().get(language)


def kit_of(language: Any) -> WrittenKit:
    """A kit. If hand-ins are of its language, its agent has the name and is started by
    the words of hand-ins."""
    exercise = exercise_of(language)
    if exercise is not None:
        return WrittenKit(
            exercise.name,
            exercise.title,
            exercise.files(),
            exercise.command,
            LINE,
            False,
        )
    if language not in languages():
        raise RequestRefusedError(404, _("there is no such kit here"))
    files = files_of(language)
    kit = KITS[language]
    rules = settings.HALL.hand_ins
    main = next(iter(files))
    line = COMPILED_LINE if kit.build else LINE
    if (
        rules is not None
        and pathlib.Path(rules.file).suffix == pathlib.Path(main).suffix
    ):
        named_texts = {
            rules.file if file == main else file: text for file, text in files.items()
        }
        return WrittenKit(language, kit.name, named_texts, rules.command, line, True)
    words = f"{kit.play} {WORDS}"
    if kit.build:
        words = f"sh -c '{kit.build} -s >&2 && exec {kit.play} $*' sh {WORDS}"
    return WrittenKit(language, kit.name, files, words, line, False)


def files_of(language: str) -> Dict[str, str]:
    """The files of a kit, by their names."""
    paths = [AGENTS / language / name for name in SOURCES[language]]
    return {path.name: path.read_text(encoding="utf-8") for path in paths}
