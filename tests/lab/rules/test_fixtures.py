"""What the lab refuses of a match, as the program does."""
import contextlib
import os
import unittest

from arena_lab.rules.fixtures import (
    SEED,
    Fixture,
    MatchError,
    check_setup,
    fixture_of,
    read_tournament,
    tournament_text,
    write_tournament,
)
from arena_lab.rules.model import Match, Setup
from arena_lab.rules.networks import NetworkError, in_file, ring, text_of
from tests.support.output import InTemporary

NETWORK = ring(4)
RIGHT = Setup(4, NETWORK.links, 0, [2], 2, 1000, 4096)


class Setups(unittest.TestCase):
    def test_a_right_one_is_taken(self) -> None:
        for setup in (
            RIGHT,
            RIGHT._replace(holes=[1, 3]),
            RIGHT._replace(holes=[], dark=[(0, 0), (0, 1)]),
        ):
            self.assertEqual(check_setup(setup), setup)

    def test_what_is_refused(self) -> None:
        wrong = {
            "1 to 64 agents, and not 65": RIGHT._replace(agents=65),
            "1 to 64 agents, and not 0": RIGHT._replace(agents=0),
            "1 to 65535 commands, and not 0": RIGHT._replace(quota=0),
            "1 to 65535 commands, and not 65536": RIGHT._replace(quota=65_536),
            "0 to 65535 bytes, and not 65536": RIGHT._replace(board=65_536),
            "the home base 4 does not exist": RIGHT._replace(home=4),
            "other than the home base 0": RIGHT._replace(holes=[0]),
            "nodes from 0 to 3": RIGHT._replace(holes=[4]),
            "node 2 is named as a black hole twice": RIGHT._replace(holes=[2, 2]),
            "node 0 has no port 5": RIGHT._replace(dark=[(0, 5)]),
            "a dark link is named twice": RIGHT._replace(dark=[(0, 0), (1, 1)]),
        }
        for why, setup in wrong.items():
            with self.subTest(why), self.assertRaisesRegex(MatchError, why):
                check_setup(setup)


class Versions(unittest.TestCase):
    def test_later_versions_are_written_only_if_the_earlier_ones_cannot_say_it(
        self,
    ) -> None:
        for setup, file, replay in (
            (RIGHT, 2, 2),
            (RIGHT._replace(quota=1001), 3, 3),
            (RIGHT._replace(board=4097), 3, 3),
            (RIGHT._replace(quota=65_535, board=65_535), 3, 3),
        ):
            with self.subTest(setup=setup):
                text = tournament_text(SEED, [(fixture_of(setup), "network.toml")])
                self.assertEqual(text.splitlines()[0], f"version = {file}")
                self.assertEqual(Match(setup).head()["replay"], replay)

    def test_networks(self) -> None:
        for nodes, version in ((256, 1), (257, 2), (4096, 2)):
            with self.subTest(nodes):
                self.assertEqual(
                    text_of(ring(nodes)).splitlines()[0], f"version = {version}"
                )
        self.assertEqual(
            Match(Setup(257, ring(257).links, 0, [2], 1, 10, 8)).head()["replay"], 3
        )


class Files(InTemporary):
    def test_files_of_another_kind_are_told(self) -> None:
        file = self.folder / "file"
        for text, why in (
            ("# words", "it has no key 'nodes'"),
            ("nodes = 3\nlinks = 4", "not iterable"),
            ("nodes", "Expected '=' after a key"),
        ):
            file.write_text(text, encoding="utf-8")
            with self.subTest(text), self.assertRaisesRegex(NetworkError, why):
                in_file(str(file))
            with self.subTest(text), self.assertRaisesRegex(
                MatchError, "it is no tournament"
            ):
                read_tournament(str(file))

    def test_a_key_that_is_missing_and_one_that_version_3_does_not_have(self) -> None:
        (self.folder / "four.toml").write_text(text_of(NETWORK))
        cup = self.folder / "cup.toml"
        text = tournament_text(SEED, [(fixture_of(RIGHT), "four.toml")])
        # a match without black holes lacks the key of later versions
        cup.write_text(text.replace("holes", "hloes"))
        with self.assertRaisesRegex(MatchError, "it has no key 'holes'"):
            read_tournament(str(cup))
        for word in ("seed = ", "held = "):
            strange = text.replace(word, f"hled = 0\n{word}")
            with self.subTest(word):
                cup.write_text(strange)
                self.assertEqual(len(read_tournament(str(cup)).fixtures), 1)
                cup.write_text(strange.replace("version = 2", "version = 3"))
                with self.assertRaisesRegex(
                    MatchError, "unknown key hled: the keys here are"
                ):
                    read_tournament(str(cup))

    def test_a_network_is_looked_for_as_the_program_does(self) -> None:
        folder = self.folder / "week"
        elsewhere = self.folder / "elsewhere"
        for path, nodes in ((folder, 5), (elsewhere, 4)):
            path.mkdir()
            (path / "net.toml").write_text(text_of(ring(nodes)), encoding="utf-8")
        tournament = folder / "t.toml"
        tournament.write_text(
            tournament_text(SEED, [(fixture_of(RIGHT), "net.toml")]), encoding="utf-8"
        )
        before = os.getcwd()
        self.addCleanup(os.chdir, before)
        for path, nodes in ((self.folder, 5), (elsewhere, 4), (folder, 5)):
            os.chdir(path)
            self.assertEqual(
                read_tournament(str(tournament)).fixtures[0].setup.nodes, nodes
            )
        os.chdir(before)


class Written(InTemporary):
    def test_a_tournament_is_written_and_read(self) -> None:
        setup = Setup(4, ring(4).links, 1, [0, 3], 2, 9, 7, [(1, 0)])
        fixture = Fixture("red", setup, ['a "key"', "\u20ac"], [(2, 1)])
        write_tournament(fixture, self.folder)
        with contextlib.chdir(self.folder):
            self.assertEqual(read_tournament("tournament.toml").fixtures, [fixture])
