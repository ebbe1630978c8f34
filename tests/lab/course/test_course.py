"""A course's file, the places of its matches, and its secret."""
import contextlib
import io
import pathlib
import stat
from typing import Dict, List

from arena_lab.course import course_files
from arena_lab.course.course_files import course_of
from arena_lab.rules import draws, networks
from arena_lab.sandbox.sandboxes import Isolation
from arena_lab.support.fields import FileFormatError
from arena_lab.sweep import tables
from tests.support.course_files import HEAD, SECRET, TEAM, Folder


class Files(Folder):
    def test_each_team_plays_the_same_matches_in_an_order_of_its_own_one_team_after_the_other(
        self,
    ) -> None:
        orders = set()
        for number in range(8):
            for holes in ("[1, 3]", "2"):
                text = (
                    HEAD
                    + f"holes = {holes}\nseeds = 2\n"
                    + TEAM
                    + TEAM.replace('"a"', '"b"')
                )
                result = course_of(text, self.folder, f"{SECRET}{number}").cases()
                self.assertEqual([case.number for case in result], list(range(16)))
                matches_of: Dict[str, List[tuple]] = {"a": [], "b": []}
                for case in result:
                    matches_of[case.team.name].append((*case[1:3], *case[4:]))
                self.assertEqual(sorted(matches_of["a"]), sorted(matches_of["b"]))
                orders.add("".join(case.team.name for case in result))
        self.assertEqual(orders, {"a" * 8 + "b" * 8, "b" * 8 + "a" * 8})

    def test_keys_are_those_of_this_course_and_no_two_are_the_same(self) -> None:
        first = self.course()
        second = self.course("seeds = 2\n")
        keys = [
            key for case in first.cases() for key in first.conditions.fixture(case).keys
        ]
        self.assertEqual(len(set(keys)), 4)
        self.assertFalse(
            set(keys)
            & {
                key
                for case in second.cases()
                for key in second.conditions.fixture(case).keys
            }
        )

    def test_files_are_looked_for_in_the_folder_of_the_course(self) -> None:
        (self.folder / "net.toml").write_text(
            "nodes = 3\nlinks = [[0, 0, 1, 0], [1, 1, 2, 0], [2, 1, 0, 1]]\n"
        )
        course = course_of(
            HEAD.replace('"ring:4"', '"net.toml"') + TEAM, self.folder, SECRET
        )
        self.assertEqual(course.grid.networks["net.toml"].nodes, 3)
        self.assertEqual(
            {pathlib.Path(name).name for name in course.digests()},
            {"net.toml", "secret.txt"},
        )

    def test_a_module_is_told_where_to_connect_by_its_player(self) -> None:
        result = self.course(
            "", TEAM.replace("python3 agent.py {port} {key}", "agent.wasm:{nodes}")
        )
        self.assertEqual(result.grid.teams[0].words.words, "agent.wasm:{nodes}")

    def test_what_is_refused(self) -> None:
        for middle, team, message in (
            ("", "", "team must be given"),
            ("size = 1\n", TEAM, "a course has no key size; its keys are agents,"),
            ("bound = 'n^2'\n", TEAM, "a course has no key bound"),
            ("limit = 0\n", TEAM, "limit must be a whole"),
            ("match_limit = 0\n", TEAM, "match_limit must be"),
            ("team_limit = 0\n", TEAM, "team_limit must be"),
            (
                "tools = ['opt']\n",
                TEAM,
                "tools has opt, which is no folder that programs may see",
            ),
            (
                "tools = ['/']\n",
                TEAM,
                "tools has /, which is no folder that programs may see",
            ),
            ("proc = 1\n", TEAM, "proc must be true or false"),
            (
                "match_space = 0\n",
                TEAM,
                "match_space must be a whole number of MB from 1",
            ),
            ("tries = -1\n", TEAM, "tries must be a whole number"),
            ("ports = 'some'\n", TEAM, "ports must be"),
            ("holes = [4]\n", TEAM, "holes has 4, and a black hole of ring:4"),
            ("", TEAM + TEAM, "two teams have the same name"),
            (
                "",
                TEAM.replace('"a"', '"A b"'),
                "name must be given for each team, of 1 to 16 characters",
            ),
            ("", TEAM + "agent = 'x.py'\n", "a team of a course has no key agent"),
            ("", TEAM.replace('["agent.py"]', "[]"), "files must be given for team a"),
            (
                "",
                TEAM.replace('agent.py"]', 'no.py"]'),
                "files of team a has no.py, and there is no ",
            ),
            (
                "",
                TEAM.replace("{key}", "x"),
                "the command of team a has no {key}: the program is to connect",
            ),
            (
                "",
                TEAM.replace("{port}", "{prot}"),
                "the command of team a has 'prot'; it may have {host}, {port},",
            ),
            ("", TEAM.replace("{port}", "{"), "the command of team a cannot be read"),
            ("", TEAM + "agents = 65\n", "agents must be 1 to 64"),
        ):
            with self.subTest(message), self.assertRaises(FileFormatError) as fault:
                self.course(middle, team)
            self.assertIn(message, str(fault.exception))

    def test_files_that_cannot_be_read(self) -> None:
        path = self.folder / "course.toml"
        with self.assertRaisesRegex(
            FileFormatError, "course.toml: there is no such file"
        ):
            course_files.read_course(path, SECRET)
        path.write_bytes(b"\xff")
        with self.assertRaisesRegex(FileFormatError, "it is no text in UTF-8"):
            course_files.read_course(path, SECRET)
        (self.folder / "net.toml").write_text("nodes = 3\n")
        path.write_text(HEAD.replace("ring:4", "net.toml") + TEAM)
        with self.assertRaisesRegex(
            FileFormatError, "networks has net.toml, which is no network file"
        ):
            course_files.read_course(path, SECRET)

    def test_results_and_a_course_where_programs_look(self) -> None:
        """Results that programs can read show them the black holes and other teams'
        rows."""
        tools = [str(self.folder)]
        for path in ("/usr/share/course", "/lib/course", self.folder / "out"):
            with self.subTest(path), self.assertRaisesRegex(
                FileFormatError, "teams' programs see .*: name a folder else"
            ):
                course_files.check_walls(
                    Isolation.ALL, [pathlib.Path("/srv"), pathlib.Path(path)], tools
                )
        course_files.check_walls(Isolation.ALL, [self.folder], [])
        course_files.check_walls(
            Isolation.NONE, [pathlib.Path("/usr/share/course")], tools
        )

    def test_limits_grow_with_the_matches(self) -> None:
        self.assertEqual(self.course().terms.limits, (20, 60, 600, 8, 256))
        self.assertEqual(
            self.course("seeds = 100\n").terms.limits, (20, 60, 1000, 8, 400)
        )
        conditions = self.course(
            "seeds = 100\nlimit = 1\nmatch_limit = 2\nteam_limit = 3\n"
        )
        self.assertEqual(conditions.terms.limits[:3], (1, 2, 3))


class Places(Folder):
    """What is drawn for each match, so that what a program keeps of one tells nothing
    of another."""

    def places(self, middle: str) -> List[tuple]:
        """The black hole, the home base and the links of each match, by the numbers of
        their seeds."""
        text = 'title = "T"\nnetworks = ["ring:64"]\nseeds = 12\n' + middle + TEAM
        course = course_of(text, self.folder, SECRET)
        cases = sorted(course.cases(), key=lambda case: case.seed)
        setups = [course.conditions.fixture(case).setup for case in cases]
        return [(setup.holes[0], setup.home, tuple(setup.links)) for setup in setups]

    def test_they_are_drawn_for_each_match(self) -> None:
        for holes in ("1", '"by seed"', '"drawn"'):
            hole, home, links = map(set, zip(*self.places(f"holes = {holes}\n")))
            self.assertGreater(len(hole), 8)
            self.assertGreater(len(home), 8)
            self.assertEqual(len(links), 12)

    def test_what_the_file_names_is_not_drawn(self) -> None:
        conditions = networks.network_named("ring:64").links
        for middle, expectation in (
            ("holes = [3]\n", {(3, 0, tuple(conditions))}),
            ("holes = 1\nhome = 5\nports = 'given'\n", {(5, tuple(conditions))}),
            (
                "holes = 1\nhome = 5\nports = 'shuffled:3'\n",
                {
                    (
                        5,
                        tuple(
                            draws.renumber(networks.network_named("ring:64"), 3).links
                        ),
                    )
                },
            ),
        ):
            result = self.places(middle)
            self.assertEqual(
                {result[-len(min(expectation)) :] for result in result}, expectation
            )


class Secrets(Folder):
    """What a team that knows the course's file could work out, if it were not drawn
    from a secret."""

    def draw(self, secret: str, holes: str) -> List[int]:
        text = (
            HEAD.replace("ring:5", "ring:64") + f"holes = {holes}\nseeds = 4\n" + TEAM
        )
        return [
            case.holes[0]
            for case in course_of(text, self.folder, secret).cases()
            if case.network == "ring:64"
        ]

    def test_black_holes(self) -> None:
        for holes in ("8", '"by seed"', '"drawn"'):
            results = {
                tuple(self.draw(f"{SECRET}{number}", holes)) for number in range(5)
            }
            self.assertEqual(len(results), 5, holes)
            self.assertEqual(self.draw(SECRET, holes), self.draw(SECRET, holes))
        self.assertEqual(set(self.draw(SECRET, "[3]")), {3})

    def test_keys_and_what_schedulers_draw(self) -> None:
        first, second = (
            course_of(HEAD + "seeds = 2\n" + TEAM, self.folder, f"{SECRET}{number}")
            for number in range(2)
        )
        keys = [
            {key for case in each.cases() for key in each.conditions.fixture(case).keys}
            for each in (first, second)
        ]
        self.assertFalse(keys[0] & keys[1])
        seeds = [
            [each.conditions.seed(case) for case in each.cases()]
            for each in (first, second)
        ]
        self.assertFalse(set(seeds[0]) & set(seeds[1]))
        self.assertEqual(len(set(seeds[0])), 4)
        self.assertNotIn(0, seeds[0])

    def test_teams_get_the_same_draws(self) -> None:
        result = self.course("seeds = 2\n", TEAM + TEAM.replace('"a"', '"b"'))
        seeds = [
            [
                result.conditions.seed(case)
                for case in result.cases()
                if case.team.name == name
            ]
            for name in "ab"
        ]
        self.assertEqual(sorted(seeds[0]), sorted(seeds[1]))

    def test_it_is_kept_where_the_teacher_alone_reads_it(self) -> None:
        out = self.folder / "out"
        second = self.folder / "other"
        secret = course_files.secret_in(out, None)
        self.assertEqual(
            stat.S_IMODE((out / course_files.SECRET).stat().st_mode), 0o600
        )
        self.assertEqual(course_files.secret_in(out, None), secret)
        self.assertNotEqual(course_files.secret_in(second, None), secret)
        self.assertEqual(
            course_files.secret_in(self.folder / "again", out / course_files.SECRET),
            secret,
        )
        with self.assertRaisesRegex(FileFormatError, "is another secret than"):
            course_files.secret_in(second, out / course_files.SECRET)
        (self.folder / "short").write_text("guess me\n")
        with self.assertRaisesRegex(FileFormatError, "at least 16 characters"):
            course_files.secret_in(self.folder / "new", self.folder / "short")

    def test_it_is_another_once_a_team_has_handed_in_something_else(self) -> None:
        """So who was shown the places of an earlier grading cannot use them. New teams
        change nothing."""
        first = self.folder / "first"
        secret = course_files.secret_in(first, None)
        digests = {"team a": "1", "team b": "2"}
        tables.write_record(first, {"files": {**digests, "net.toml": "3"}})
        for name, handed_in, is_same in (
            ("same", digests, True),
            ("more", {**digests, "team c": "4"}, True),
            ("fewer", {"team a": "1"}, True),
            ("other", {**digests, "team b": "5"}, False),
        ):
            with contextlib.redirect_stderr(io.StringIO()) as stream:
                result = course_files.secret_in(
                    self.folder / name, first / course_files.SECRET, handed_in
                )
            self.assertEqual(result == secret, is_same, name)
            self.assertEqual(
                "team b has handed in something else than when" in stream.getvalue(),
                not is_same,
            )

    def test_the_order_of_a_team_depends_on_no_other(self) -> None:
        alone, both = (
            course_of(
                HEAD + "holes = 3\nseeds = 4\n" + teams, self.folder, SECRET
            ).cases()
            for teams in (TEAM, TEAM + TEAM.replace('"a"', '"b"'))
        )
        match = [
            [case[1:3] + case[4:] for case in cases if case.team.name == "a"]
            for cases in (alone, both)
        ]
        self.assertEqual(*match)
        self.assertNotEqual(match[0], sorted(match[0]))
