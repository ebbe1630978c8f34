"""The page that lists the matches of a contest."""
import unittest
from unittest import mock

from arena_lab.pages import contest_pages
from arena_lab.pages.contest_pages import (
    BETTER,
    LAST,
    MatchRow,
    Tries,
    matches_of,
    page_of,
    write_pages,
)
from arena_lab.rules.model import Verdict
from arena_lab.rules.networks import NetworkError
from tests.support.output import InTemporary

TOURNAMENT = """version = 2
[[match]]
team = "red"
network = "ring.toml"
[[match]]
team = "blue"
network = "<b>.toml"
"""


class Lists(unittest.TestCase):
    def test_matches_stand_in_the_order_of_the_table(self) -> None:
        verdicts = [
            Verdict("wrong", 1, 0),
            Verdict("solved", 9, 1),
            Verdict("guess 4", 2, 0),
            Verdict("solved", 9, 0),
            None,
        ]
        page = page_of(
            "cup",
            [
                MatchRow(number, f"t{number}", "n", verdict)
                for number, verdict in enumerate(verdicts)
            ],
        )
        teams, _, matches = page.partition("<h2>Matches</h2>")
        places = [matches.index(f"<td>t{number}</td>") for number in (3, 1, 2, 0, 4)]
        self.assertEqual(places, sorted(places))
        self.assertLess(teams.index("<td>t3</td>"), teams.index("<td>t1</td>"))
        self.assertIn("5 matches, 2 solved", page)
        self.assertIn('<a href="match3.html">', page)
        self.assertNotIn("match4.html", page)

    def test_the_matches_on_each_network_stand_apart(self) -> None:
        verdict = Verdict("solved", 9, 0)
        wrong = Verdict("wrong", 1, 0)
        page = page_of(
            "cup",
            [
                MatchRow(number, "red", network, first)
                for number, (network, first) in enumerate(
                    [
                        ("ring.toml", wrong),
                        ("cube.toml", verdict),
                        ("ring.toml", verdict),
                    ]
                )
            ],
        )
        places = [
            page.index(text)
            for text in (
                ">ring</th></tr>",
                "match2.html",
                "match0.html",
                ">cube</th></tr>",
                "match1.html",
            )
        ]
        self.assertEqual(places, sorted(places))

    def test_texts_of_the_file_are_escaped(self) -> None:
        page = page_of("<i>", [MatchRow(0, "a", "<b>.toml", None)])
        self.assertIn("&lt;b&gt;.toml", page)
        self.assertNotIn("<i>", page)


class Writes(InTemporary):
    def setUp(self) -> None:
        super().setUp()
        self.file = self.folder / "cup.toml"
        self.file.write_text(TOURNAMENT)

    def test_a_match_has_a_page_if_it_has_a_replay(self) -> None:
        (self.folder / "m1.jsonl").write_text("{}\n")
        with mock.patch.object(
            contest_pages, "verdict_of", return_value=Verdict("guess 2", 7, 1)
        ), mock.patch.object(
            contest_pages,
            "write_page",
            lambda _, replay, page, title: page.write_text("page"),
        ):
            index = write_pages(
                "arena", self.file, str(self.folder / "m"), self.folder / "out"
            )
        self.assertEqual(
            sorted(path.name for path in index.parent.iterdir()),
            ["index.html", "match1.html", "match1.jsonl"],
        )
        self.assertIn("<td>guess 2</td><td>7</td><td>1</td>", index.read_text())
        self.assertIn("no replay", index.read_text())

    def test_of_several_tries_one_counts(self) -> None:
        again = self.folder / "again1"
        again.mkdir()
        (again / "tournament.toml").write_text(TOURNAMENT)
        (again / "again.toml").write_text("match = 1\n")
        for path, text in (
            (self.folder / "m1.jsonl", "first"),
            (again / "tournament0.jsonl", "second"),
        ):
            path.write_text(text)
        verdicts = {"first": Verdict("solved", 9, 1), "second": Verdict("silent", 7, 0)}
        for take, counts in ((BETTER, "first"), (LAST, "second")):
            with mock.patch.object(
                contest_pages, "verdict_of", lambda _, it: verdicts[it.read_text()]
            ), mock.patch.object(
                contest_pages,
                "write_page",
                lambda _, replay, page, title: page.write_text(""),
            ):
                index = write_pages(
                    None,
                    self.file,
                    str(self.folder / "m"),
                    self.folder / take,
                    Tries([again], take),
                )
            self.assertEqual((index.parent / "match1.jsonl").read_text(), counts)
            self.assertIn(
                f"<td>{verdicts[counts].outcome} (2 tries)</td>", index.read_text()
            )
        with self.assertRaisesRegex(NetworkError, "this is no other try of a match"):
            write_pages(
                None,
                self.file,
                str(self.folder / "m"),
                self.folder / "out",
                Tries([self.folder]),
            )

    def test_a_file_that_is_no_tournament_is_told(self) -> None:
        for text in ("", "match = 1", "[[match]]\nteam = 1", "x"):
            self.file.write_text(text)
            with self.assertRaisesRegex(
                NetworkError, "cup.toml: this is not the file of a tournament"
            ):
                matches_of(self.file)
