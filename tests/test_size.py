"""The tree does not grow unseen: its figures may fall, and rise only by an edit of
tests/size.toml."""
import unittest

from tests import needs
from tools import size, words

REST = '["files that name a command"]\n"Look" = 3  # and why\n["of others"]\n"a" = 9\n'
KEPT = f'[words]\n# why\n"a.md" = 200\n"gone.md" = 5\n{REST}'


class Size(unittest.TestCase):
    @needs("git", "git")
    def test_no_figure_has_risen(self) -> None:
        result = size.risen(size.figures(), size.recorded_figures())
        self.assertEqual(
            result,
            [],
            "\nmake it smaller, or raise the figure in tests/size.toml, and say in the commit what that is worth",
        )


class Tool(unittest.TestCase):
    def test_what_has_risen_or_is_new_is_named(self) -> None:
        now = {"words": {"a.md": 11.0, "b.md": 1.0, "c.md": 9.0}}
        self.assertEqual(
            size.risen(now, {"words": {"a.md": 10, "c.md": 9}}),
            ["words, a.md: 11, and 10 is kept", "words, b.md: 1, and none is kept"],
        )

    def test_what_has_fallen_is_kept_and_comments_stay(self) -> None:
        now = {"words": {"a.md": 101.0}, "files that name a command": {"Look": 4.0}}
        self.assertEqual(
            size.lower_figures(KEPT, now),
            f'[words]\n# why\n"a.md" = 150\n{REST}',
        )

    def test_statements_are_counted_and_not_lines(self) -> None:
        self.assertEqual(
            size.statements('"""Head."""\nif a:\n    b(\n        c,\n    )\n'), 2
        )
        self.assertEqual(size.statements("a = 1; b = 2\n"), 2)


class Words(unittest.TestCase):
    def test_a_sentence_without_nouns_is_vague(self) -> None:
        source = (
            '"""What is there of it, and what is not of it."""\n'
            "# Returns the lines of a file\n# in reverse order.\n"
        )
        sentences = words.measure_source(source, ".py").sentences
        self.assertEqual(
            [(sentence.line, sentence.is_vague) for sentence in sentences],
            [(1, True), (2, False)],
        )

    def test_participles_and_pronouns_are_vague_names(self) -> None:
        source = "def checked(it, row):\n    found = row\n    return [n for n in it]\n"
        self.assertEqual(words.measure_source(source, ".py").vague(), (0, 2, 1))
        self.assertEqual(words.measure_source("def (", ".py").vague(), (0, 0, 0))

    def test_comments_of_rattle_are_read(self) -> None:
        source = "/// What it is of which there is one.\nfn told() {}\n"
        self.assertEqual(words.measure_source(source, ".rt").vague(), (1, 0, 0))
