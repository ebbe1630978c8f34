"""The parts of a hall that need no Django: its file, the rules of its standings, and what
a team sees of a running match."""
import argparse
import contextlib
import io
import json
import os
import pathlib
import random
import tarfile
import tempfile
import unittest
from typing import Any, Dict
from unittest import mock

from arena_lab.commands import hall
from arena_lab.course.check_jobs import conditions_of
from arena_lab.hall import backup, grading_terms, serving
from arena_lab.hall.attempts.match_draws import TOURNAMENT, draw_match, write
from arena_lab.hall.attempts.seen import Part, match_end
from arena_lab.hall.hall_files import DRAWN, FIXED, Net, HallError, hall_of, read_hall
from arena_lab.hall.place import HallFolder
from arena_lab.hall.standings.ranking import GradedTeam, league
from arena_lab.play.teams import AgentWords
from arena_lab.rules.model import Match, Setup, spell
from arena_lab.rules.networks import NetworkError, ring, text_of
from arena_lab.support.fields import FileFormatError, table_of
from tests.support.drawing import by_chance
from tests.support.needing import needs
from tests.support.output import InTemporary

COURSE = 'title = "x"\n[[network]]\nname = "it"\nnetwork = "ring:5"\n'
HAND_INS = '[hand_ins]\ncommand = "python3 agent.py {host} {port} {key}"\nnetworks = ["ring:5"]\n'


class Courses(unittest.TestCase):
    """The file of a course."""

    def read_hall(self, text: str) -> Any:
        return hall_of(text, pathlib.Path("/course.toml"))

    def test_rated_series_of_an_earlier_file_are_passed_over_and_told(self) -> None:
        self.assertEqual(self.read_hall(COURSE).notes, [])
        notes = self.read_hall(COURSE + "[rated]\nseries = 3\ntraps = 1\n").notes
        self.assertEqual(len(notes), 1)
        self.assertIn("[rated] is passed over", notes[0])

    def test_tables_that_are_none_are_refused(self) -> None:
        for name in ("team", "network"):
            with self.assertRaisesRegex(
                FileFormatError,
                rf"{name} must be given: write \[\[{name}\]\] and its keys below",
            ):
                self.read_hall(f'title = "x"\n{name} = [1]\n')

    def test_a_name_that_begins_with_a_hyphen_is_refused(self) -> None:
        """A program for tables would take such a team's token for a formula."""
        self.assertEqual(
            [
                team.name
                for team in self.read_hall(COURSE + '[[team]]\nname = "a-b"\n').teams
            ],
            ["a-b"],
        )
        with self.assertRaisesRegex(FileFormatError, "which does not come first"):
            self.read_hall(COURSE + '[[team]]\nname = "-a"\n')

    def test_hand_ins_without_a_deadline_are_told(self) -> None:
        self.assertIn("has no deadline", self.read_hall(COURSE + HAND_INS).notes[0])
        conditions_used = self.read_hall(
            COURSE + HAND_INS + 'deadline = "2099-01-01 12:00"\n'
        )
        # by the secret draw programs play on the same networks, unless others are named
        self.assertEqual(
            (conditions_used.notes, conditions_used.hand_ins.secret),
            ([], {"ring:5": "ring:5"}),
        )

    def test_hand_ins_are_graded_as_practice_is_played(self) -> None:
        """And by what a team's check plays."""
        own = '[[network]]\nname = "big"\nnetwork = "hypercube:3"\n'
        text = COURSE + HAND_INS.replace('["ring:5"]', '["ring:6", "hypercube:3"]')
        hall = self.read_hall(text + 'deadline = "2099-01-01 12:00"\n' + own)
        names = hall.hand_ins.networks if hall.hand_ins else {}
        plain = grading_terms.text_of(hall, names)
        self.assertNotIn("[conditions", plain)
        own += 'agents = "degree"\nquota = 200\nboard = 64\nlabels = "fixed"\n'
        hall = self.read_hall(text + 'deadline = "2099-01-01 12:00"\n' + own)
        result = grading_terms.for_teams(hall, {**names, "/net.toml": "net"})
        self.assertIn("# net is a file: ask your teacher for it\n", result)
        conditions_used = conditions_of(
            table_of(result), pathlib.Path(), AgentWords("agent", "agent.py")
        )
        cases = list(conditions_used.cases())
        setups = {case.network: conditions_used.fixture(case).setup for case in cases}
        terms = {
            name: (setup.agents, setup.quota, setup.board)
            for name, setup in setups.items()
        }
        self.assertEqual(
            terms, {"ring:6": (2, 1000, 4096), "hypercube:3": (4, 200, 64)}
        )
        ports = {case.network: case.ports is None for case in cases}
        self.assertEqual(ports, {"ring:6": False, "hypercube:3": True})
        homes = {case.home for case in cases if case.network == "hypercube:3"}
        self.assertGreater(len(homes), 1)
        # what [hand_ins] says of agents and of packages is for all networks
        output = text + "agents = 3\n" + 'deadline = "2099-01-01 12:00"\n' + own
        self.assertIn(
            "agents = 3\n", grading_terms.text_of(self.read_hall(output), names)
        )
        self.assertEqual(
            grading_terms.text_of(self.read_hall(output), names).count("agents ="), 1
        )
        packed_value = self.read_hall(text + 'packages = ["gcc"]\n' + own)
        self.assertIn(
            'packages = ["gcc"]\n', grading_terms.text_of(packed_value, names)
        )

    def test_kits_that_nobody_writes_in_the_browser_are_refused(self) -> None:
        self.assertIsNone(self.read_hall(COURSE).editor)
        rules = self.read_hall(COURSE + "[editor]\n").editor
        assert rules is not None
        self.assertEqual((rules.languages, rules.trials), (["python"], 2))
        with self.assertRaisesRegex(
            FileFormatError, "languages must be a list of python, "
        ):
            self.read_hall(COURSE + '[editor]\nlanguages = ["cobol"]\n')

    def test_networks_of_hand_ins_may_be_files_beside_the_course(self) -> None:
        with tempfile.TemporaryDirectory() as name:
            course = pathlib.Path(name) / "course.toml"
            text = COURSE + HAND_INS.replace("ring:5", "n.toml")
            with self.assertRaisesRegex(
                NetworkError, "n.toml: there is no such file; a network is"
            ):
                hall_of(text, course)
            course.with_name("n.toml").write_text(text_of(ring(5)))
            conditions_used = hall_of(text, course).hand_ins
            self.assertEqual(conditions_used.networks, {f"{name}/n.toml": "n.toml"})
            self.assertEqual(conditions_used.secret, conditions_used.networks)

    def test_hand_ins_may_be_modules(self) -> None:
        words = "agent.wasm:{nodes}"
        conditions_used = self.read_hall(
            COURSE + HAND_INS.replace("python3 agent.py {host} {port} {key}", words)
        )
        self.assertEqual(conditions_used.hand_ins[:2], (words, "agent.wasm"))
        for second, why in (
            ("agent.wasm:{ports}", "has 'ports'; it may"),
            ("/agent.wasm", "file must be the name"),
        ):
            with self.assertRaisesRegex(FileFormatError, why):
                self.read_hall(
                    COURSE
                    + HAND_INS.replace("python3 agent.py {host} {port} {key}", second)
                )


class Draws(InTemporary):
    """Each attempt has draws of its own."""

    def test_what_is_drawn_for_one_attempt_tells_nothing_of_another(self) -> None:
        """Of many draws each node is the black hole, each is the home base, and no key,
        no labels and no seed come twice."""
        net = Net("ring", "ring:6", ring(6), 2, 1, 100, 40, DRAWN, True)
        results = [draw_match(net, "amber") for _ in range(200)]
        setups = [result.fixture.setup for result in results]
        self.assertEqual({setup.home for setup in setups}, set(range(6)))
        self.assertEqual(
            {hole for setup in setups for hole in setup.holes}, set(range(6))
        )
        self.assertTrue(
            all(
                setup.home not in setup.holes and len(setup.holes) == 1
                for setup in setups
            )
        )
        self.assertGreater(len({str(setup.links) for setup in setups}), 30)
        keys = [key for result in results for key in result.fixture.keys]
        self.assertEqual(len(set(keys)), len(keys))
        for result in results:
            self.assertEqual(
                result.map,
                {
                    "nodes": 6,
                    "links": [list(link) for link in result.fixture.setup.links],
                    "home": result.fixture.setup.home,
                },
            )

    def test_fixed_labels_and_no_map(self) -> None:
        net = Net("ring", "ring:6", ring(6), 2, 1, 100, 40, FIXED, False)
        self.assertEqual(
            [
                (it.fixture.setup.links, it.map)
                for it in (draw_match(net, "a"), draw_match(net, "a"))
            ],
            [(ring(6).links, None)] * 2,
        )

    def test_files_of_a_match_are_the_halls_alone(self) -> None:
        net = Net("ring", "ring:6", ring(6), 2, 1, 100, 40, DRAWN, False)
        seeds = set()
        for number in range(3):
            folder = self.folder / "match0" / str(number)
            write(draw_match(net, "amber"), folder)
            seeds.add((folder / TOURNAMENT).read_text().split('"')[1])
            self.assertEqual((folder / TOURNAMENT).stat().st_mode & 0o077, 0)
            self.assertEqual(folder.stat().st_mode & 0o077, 0)
        self.assertEqual(len(seeds), 3)


class Rules(unittest.TestCase):
    """Who stands before whom."""

    def test_programs_are_ranked_as_in_a_league(self) -> None:
        results = [
            GradedTeam("a", 1, 2, 5, 1, {}),
            GradedTeam("b", 2, 2, 9, 1, {}),
            GradedTeam("c", 1, 2, 5, 1, {}),
            GradedTeam("d", 1, 2, 5, 0, {}),
            GradedTeam("e", 1, 2, 4, 9, {}),
        ]
        self.assertEqual(
            [(position, it.team) for position, it in league(results)],
            [(1, "b"), (2, "e"), (3, "d"), (4, "a"), (4, "c")],
        )


class Seen(InTemporary):
    """What a team sees of a match that goes on is what its agents were told."""

    def setUp(self) -> None:
        super().setUp()
        self.path = self.folder / "m0.jsonl.part"

    def match(self, hole: int) -> Match:
        return Match(Setup(6, ring(6).links, 0, [hole], 2, 100, 40))

    def write(self, match: Match) -> None:
        self.path.write_text(
            "".join(spell(line) + "\n" for line in [match.head(), *match.log])
        )

    def html_of(self, match: Match) -> str:
        self.write(match)
        return json.dumps(Part(self.path, 2).as_list())

    @by_chance(60)
    def test_two_matches_that_no_agent_can_tell_apart_look_alike(
        self, rng: random.Random
    ) -> None:
        """In one match agent 0 is destroyed; in the other it is still on its link, and
        the black hole is a node that nobody reaches."""
        dead = self.match(1)
        alive = self.match(4)
        for match in (dead, alive):
            match.reply_to(0, {"do": "enter"})
            match.reply_to(1, {"do": "enter"})
            match.reply_to(0, {"do": "depart", "port": 0})
        dead.deliver(0)
        for _ in range(rng.randrange(40)):
            command: Dict[str, Any] = rng.choice(
                (
                    {"do": "look"},
                    {
                        "do": "write",
                        "expect": "",
                        "put": "x" * rng.randint(0, 60),
                    },
                    {"do": "depart", "port": 9},
                    {"do": "bad"},
                )
            )
            for match in (dead, alive):
                match.reply_to(1, dict(command))
        self.assertEqual(self.html_of(dead), self.html_of(alive))
        self.assertNotEqual(dead.log, alive.log)

    def test_nothing_of_the_head_is_shown(self) -> None:
        match = self.match(3)
        match.reply_to(0, {"do": "enter"})
        text = self.html_of(match)
        for word in ("holes", "home", "links", "nodes", "dark"):
            self.assertNotIn(word, text)

    def test_a_part_that_grows_is_read_on(self) -> None:
        match = self.match(3)
        part = Part(self.path, 2)
        self.assertEqual([it["entered"] for it in part.as_list()], [False, False])
        match.reply_to(0, {"do": "enter"})
        self.write(match)
        text = self.path.read_text()
        self.path.write_text(text[:-3])
        self.assertEqual([it["entered"] for it in part.as_list()], [False, False])
        self.path.write_text(text)
        self.assertEqual([it["commands"] for it in part.as_list()], [1, 0])
        for _ in range(30):
            match.reply_to(0, {"do": "look"})
        self.write(match)
        self.assertEqual(
            (part.as_list()[0]["commands"], len(part.as_list()[0]["lines"])), (31, 12)
        )

    def test_after_the_close_losses_and_refused_lines_are_told(self) -> None:
        match = self.match(1)
        match.reply_to(0, {"do": "enter"})
        match.reply_to(0, {"do": "depart", "port": 7})
        match.reply_to(0, {"do": "depart", "port": 0})
        match.deliver(0)
        match.close()
        self.path.write_text(match.replay())
        message = match_end(self.path)
        assert message is not None
        self.assertEqual(message.holes, [1])
        self.assertEqual(message.lost, [{"agent": 0, "port": 0, "event": 4}])
        self.assertEqual(
            [(it["do"], it["reply"]) for it in message.refused],
            [("depart", {"no": "port"})],
        )
        self.assertEqual(
            message.refused[0]["meaning"],
            "the node has no such port: ports are 0 to `ports` - 1",
        )
        self.assertIsNone(match_end(self.path.with_name("none")))


class Commands(InTemporary):
    """The file of a course that `hall new` writes, and backups."""

    @needs("networkx")
    def test_its_times_are_those_of_the_machine(self) -> None:
        berlin = self.folder / "zoneinfo/Europe/Berlin"
        clock = self.folder / "localtime"
        berlin.parent.mkdir(parents=True)
        for folder in (berlin, self.folder / "a-copy"):
            folder.touch()
            clock.symlink_to(folder)
            course = self.folder / f"{folder.name}.toml"
            with mock.patch.object(
                hall, "LOCAL_TIME", str(clock)
            ), contextlib.redirect_stdout(io.StringIO()):
                hall.write_new(course)
            clock.unlink()
            self.assertEqual(
                read_hall(course).zone, "Europe/Berlin" if folder == berlin else "UTC"
            )

    @needs("networkx")
    def test_a_start_that_is_refused_changes_nothing(self) -> None:
        """Neither of a hall that is served, nor where nothing keeps programs apart."""
        self.addCleanup(os.umask, os.umask(0o077))
        course = self.folder / "it.toml"
        course.write_text(COURSE)
        second = self.folder / "other.toml"
        second.write_text(COURSE.replace('"x"', '"y"'))
        hall_folder = HallFolder(self.folder / "it.hall", course, None)
        hall_folder.write(read_hall(course))
        words = argparse.Namespace(allow_weak_sandbox=False)
        with serving.alone(hall_folder):
            before = {
                path.name: path.read_bytes() for path in hall_folder.folder.iterdir()
            }
            with self.assertRaisesRegex(HallError, "is served already"):
                of = HallFolder(hall_folder.folder, second, "/bin/false")
                hall.serve(words, of, mock.Mock(), mock.Mock())
        new = HallFolder(self.folder / "new.hall", second, None)
        refuses = mock.patch.object(
            hall, "check_walls", side_effect=HallError("no walls")
        )
        for of in (hall_folder._replace(course=second), new):
            with refuses, self.assertRaisesRegex(HallError, "no walls"):
                hall.serve(words, of, mock.Mock(), mock.Mock())
        self.assertFalse(new.folder.exists())
        after = {path.name: path.read_bytes() for path in hall_folder.folder.iterdir()}
        self.assertEqual(after, before)
        self.assertEqual(sorted(before), ["course.toml", "hall.json", "lock"])

    def test_programs_are_tried_where_walls_and_an_editor_are(self) -> None:
        words = argparse.Namespace(allow_weak_sandbox=False)
        plain = hall_of(COURSE, pathlib.Path("/c.toml"))
        writes = hall_of(COURSE + "[editor]\n", pathlib.Path("/c.toml"))
        weak = mock.patch.object(
            hall.sandboxes, "strongest", return_value=hall.Isolation.NONE
        )
        why = mock.patch.object(hall.sandboxes, "weakness", return_value="none here")
        with weak, why:
            hall.check_walls(words, plain)
            with self.assertRaisesRegex(HallError, r"none here: .*\[editor\]"):
                hall.check_walls(words, writes)
        with mock.patch.object(hall, "CODEMIRROR", pathlib.Path("/no/such")):
            hall.check_editor(plain)
            with self.assertRaisesRegex(HallError, "apt-get install libjs-codemirror"):
                hall.check_editor(writes)

    def test_a_backup_goes_on_behind_files_that_are_gone_meanwhile(self) -> None:
        """A part of a replay has become the replay, and the folder of a grading has its
        results' name."""
        hall_folder = HallFolder(self.folder / "it.hall", self.folder / "it.toml", None)
        hall_folder.write()
        hall_folder.course.write_text(COURSE)
        (self.folder / "hall.sqlite3").touch()
        (hall_folder.folder / "attempts").mkdir()
        for file in ("log.txt", "m0.jsonl.part"):
            (hall_folder.folder / "attempts" / file).touch()
        record = backup.filter_entry

        def lose_file(entry: Any) -> Any:
            for path in (hall_folder.folder / "attempts").iterdir():
                if entry.name.startswith(
                    "it.hall/attempts/"
                ) and not entry.name.endswith(path.name):
                    path.unlink()
            return record(entry)

        with mock.patch.object(
            backup, "dump_database", return_value=self.folder / "hall.sqlite3"
        ), mock.patch.object(backup, "filter_entry", lose_file):
            archive = backup.write(hall_folder, self.folder / "it.tar.gz")
        with tarfile.open(archive) as tar:
            result = tar.getnames()
        self.assertEqual(
            sum(result.startswith("it.hall/attempts/") for result in result), 1
        )
        self.assertLessEqual(
            {"it.toml", "it.hall/hall.sqlite3", "it.hall/hall.json"}, set(result)
        )
