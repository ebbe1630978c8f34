"""The program takes each network and tournament that the lab writes, and the lab
refuses what it would not take."""
import contextlib
import os
import pathlib
import stat
import subprocess
import tomllib
from typing import Tuple

from arena_lab.__main__ import main
from arena_lab.rules.fixtures import read_tournament
from arena_lab.rules.networks import Network, cut_of
from tests.support.matches import program
from tests.support.output import InTemporary, run_call
from tests.support.servers import without_notes

NAMES = (
    "ring:32",
    "grid:4x5",
    "wheel:7",
    "petersen:5x2",
    "torus:5x5",
    "hypercube:4",
    "complete:8",
    "ccc:3",
    "random:40:deg4:seed7",
    "random:12:deg3:seed1",
    "random:5",
)


def lab(*words: str) -> Tuple[int, str, str]:
    """Returns the status, output and errors of a command of the lab."""
    status, output, errors = run_call(main, list(words))
    return status, output, errors


class Written(InTemporary):
    def setUp(self) -> None:
        super().setUp()
        self.addCleanup(os.chdir, os.getcwd())
        os.chdir(self.folder)

    def check(self, folder: str) -> str:
        """What `arena check` says of the tournament in a folder."""
        words = [program(), "check", "tournament.toml"]
        result = subprocess.run(
            words, cwd=folder, capture_output=True, text=True, stdin=subprocess.DEVNULL
        )
        errors = without_notes(result.stderr.encode(), words)
        self.assertEqual((result.returncode, errors), (0, b""))
        return result.stdout

    def test_each_kind_of_network(self) -> None:
        for number, name in enumerate(NAMES):
            with self.subTest(name):
                file = f"net{number}.toml"
                folder = f"contest{number}"
                self.assertEqual(
                    lab(
                        "network", name, "--ports", f"shuffled:{number}", "--out", file
                    )[0],
                    0,
                )
                self.assertEqual(
                    lab(
                        "tournament",
                        "--team",
                        "red",
                        "--network",
                        file,
                        "--out",
                        folder,
                    )[0],
                    0,
                )
                links = tomllib.loads(pathlib.Path(file).read_text())["links"]
                nodes = len({end for link in links for end in link[::2]})
                self.assertIn(f"match 0 red nodes {nodes} ", self.check(folder))

    def test_a_network_file_of_its_author_is_kept(self) -> None:
        text = "# a triangle\nnodes = 3\nlinks = [[0, 0, 1, 0], [1, 1, 2, 0], [2, 1, 0, 1]]\n"
        pathlib.Path("mine.toml").write_text(text)
        status, _, errors = lab(
            "tournament", "--team", "red", "--network", "mine.toml", "--out", "."
        )
        self.assertEqual(status, 2)
        self.assertIn(
            "mine.toml: there is a file of this name: name another folder by --out",
            errors,
        )
        self.assertEqual(pathlib.Path("mine.toml").read_text(), text)
        self.assertEqual(sorted(os.listdir()), ["mine.toml"])

    def test_standard_output_has_the_same_file(self) -> None:
        lab("network", "ccc:3", "--out", "ccc.toml")
        self.assertEqual(
            lab("network", "ccc:3")[1], pathlib.Path("ccc.toml").read_text()
        )

    def test_teams_by_networks_by_holes(self) -> None:
        words = [
            "--team",
            "red",
            "--team",
            "blue",
            "--network",
            "ring:6",
            "--network",
            "complete:5",
            "--holes",
            "all",
            "--agents",
            "degree",
        ]
        self.assertEqual(lab("tournament", *words, "--out", "contest")[0], 0)
        self.assertEqual(len(self.check("contest").splitlines()), 2 * (5 + 4))
        os.chdir("contest")
        fixtures = read_tournament("tournament.toml").fixtures
        self.assertEqual(
            [
                (
                    fixture.team,
                    fixture.setup.nodes,
                    fixture.setup.holes,
                    fixture.setup.agents,
                )
                for fixture in fixtures
            ],
            [
                (team, nodes, [hole], agents)
                for nodes, agents in ((6, 3), (5, 5))
                for hole in range(1, nodes)
                for team in ("red", "blue")
            ],
        )

    def test_each_team_has_a_sheet_of_its_own_keys(self) -> None:
        lab(
            "tournament",
            "--team",
            "red",
            "--team",
            "blue",
            "--network",
            "ring:6",
            "--holes",
            "2",
            "--out",
            "contest",
        )
        os.chdir("contest")
        fixtures = read_tournament("tournament.toml").fixtures
        keys = [key for fixture in fixtures for key in fixture.keys]
        self.assertEqual(len(set(keys)), 8)
        for team in ("red", "blue"):
            sheet = pathlib.Path(f"keys-{team}.txt")
            words = sheet.read_text().split()
            expectation = {
                key
                for fixture in fixtures
                if fixture.team == team
                for key in fixture.keys
            }
            self.assertEqual(expectation, set(keys) & set(words))
            self.assertEqual(stat.S_IMODE(sheet.stat().st_mode), 0o600)
        self.assertEqual(stat.S_IMODE(os.stat("tournament.toml").st_mode), 0o600)

    def test_two_tournaments_share_no_key_and_no_seed(self) -> None:
        results = []
        for folder in ("one", "two"):
            lab("tournament", "--team", "red", "--network", "ring:6", "--out", folder)
            results.append(
                tomllib.loads(pathlib.Path(folder, "tournament.toml").read_text())
            )
        self.assertNotEqual(results[0]["seed"], results[1]["seed"])
        self.assertFalse(
            set(results[0]["match"][0]["keys"]) & set(results[1]["match"][0]["keys"])
        )

    def test_traps_have_no_black_hole_and_two_nodes_at_which_nobody_arrives(
        self,
    ) -> None:
        words = [
            "tournament",
            "--team",
            "red",
            "--team",
            "blue",
            "--network",
            "ring:6",
            "--network",
            "torus:3x3",
            "--traps",
            "2",
        ]
        orders = set()
        for number in range(6):
            lab(*words, "--out", f"contest{number}")
            with contextlib.chdir(f"contest{number}"):
                result = read_tournament("tournament.toml").fixtures
            self.assertEqual(len(result), 2 * (1 + 1 + 2))
            traps = [result for result in result if not result.setup.holes]
            self.assertEqual(
                sorted(trap.team for trap in traps), ["blue", "blue", "red", "red"]
            )
            for trap in traps:
                far = {(v, p): w for v, p, w, _ in trap.setup.links} | {
                    (w, q): v for v, _, w, q in trap.setup.links
                }
                nodes = {far[link_end] for link_end in trap.held}
                self.assertEqual(
                    sorted(link_end for link_end, end in far.items() if end in nodes),
                    sorted(trap.held),
                )
                self.assertEqual((len(nodes), trap.setup.home in nodes), (2, False))
            self.assertTrue(
                all(not result.held for result in result if result.setup.holes)
            )
            orders.add(tuple(bool(result.setup.holes) for result in result))
            self.assertEqual(self.check(f"contest{number}").count("match "), 8)
        self.assertGreater(len(orders), 1)
        sheet = pathlib.Path("contest0/keys-red.txt").read_text()
        self.assertNotIn("trap", sheet)

    def test_another_try_has_all_anew_but_team_network_and_limits(self) -> None:
        lab(
            "tournament",
            "--team",
            "red",
            "--team",
            "blue",
            "--network",
            "torus:3x3",
            "--traps",
            "1",
            "--out",
            "cup",
        )
        with contextlib.chdir("cup"):
            for number, first in enumerate(read_tournament("tournament.toml").fixtures):
                folder = f"again{number}"
                self.assertEqual(
                    lab(
                        "tournament",
                        "--again",
                        "tournament.toml",
                        str(number),
                        "--out",
                        folder,
                    )[0],
                    0,
                )
                self.assertIn("match 0 ", self.check(folder))
                self.assertEqual(
                    pathlib.Path(folder, "again.toml").read_text(),
                    f"match = {number}\n",
                )
                with contextlib.chdir(folder):
                    tournament = read_tournament("tournament.toml")
                (second,) = tournament.fixtures
                self.assertEqual(
                    (
                        second.team,
                        second.setup[0],
                        second.setup.home,
                        second.setup.quota,
                    ),
                    (first.team, first.setup[0], first.setup.home, first.setup.quota),
                )
                self.assertEqual(
                    (len(second.setup.holes), len(second.held)),
                    (len(first.setup.holes), len(first.held)),
                )
                self.assertFalse(set(second.keys) & set(first.keys))
                self.assertNotEqual(second.setup.links, first.setup.links)
                self.assertNotEqual(
                    tournament.seed, read_tournament("tournament.toml").seed
                )
                for name in ("tournament.toml", f"keys-{first.team}.txt"):
                    self.assertEqual(
                        stat.S_IMODE(os.stat(f"{folder}/{name}").st_mode), 0o600
                    )
            self.assertEqual(
                lab("tournament", "--again", "tournament.toml", "9", "--out", "x")[0], 2
            )

    def test_a_tournament_is_never_overwritten(self) -> None:
        words = [
            "tournament",
            "--team",
            "red",
            "--network",
            "ring:6",
            "--out",
            "contest",
        ]
        lab(*words)
        before = pathlib.Path("contest/tournament.toml").read_text()
        status, _, output = lab(*words)
        self.assertEqual(status, 2)
        self.assertIn("name another folder by --out", output)
        self.assertEqual(pathlib.Path("contest/tournament.toml").read_text(), before)

    def test_what_is_refused(self) -> None:
        bow = Network(
            5,
            [
                (0, 0, 1, 0),
                (1, 1, 2, 0),
                (2, 1, 0, 1),
                (2, 2, 3, 0),
                (3, 1, 4, 0),
                (4, 1, 2, 3),
            ],
        )
        self.assertEqual(cut_of(bow), "without node 2 some other nodes are apart")
        pathlib.Path("bow.toml").write_text(
            f"version = 1\nnodes = 5\nlinks = {[list(link) for link in bow.links]}\n"
        )
        team = ["tournament", "--out", "contest", "--team", "red", "--network"]
        for words, message in (
            (
                ["network", "bow.toml"],
                "without node 2 some other nodes are apart; add a link",
            ),
            (
                ["network", "random:10:deg2:seed1"],
                "no path joins node 0 to node 1; take another seed",
            ),
            ([*team, "bow.toml"], "without node 2"),
            ([*team, "ring:6", "--hole", "0"], "black hole"),
            ([*team, "ring:6", "--holes", "9"], "only 5 nodes can be the black hole"),
            (
                [*team, "ring:80", "--holes", "all"],
                "at most 64 matches, and this would have 79",
            ),
            (
                [*team, "complete:70", "--agents", "degree"],
                "1 to 64 agents, and not 70",
            ),
            ([*team, "ring:6", "--home", "6"], "it has no node 6"),
            ([*team, "ring:6", "--quota", "65536"], "1 to 65535 commands"),
            ([*team, "ring:6", "--board", "65536"], "0 to 65535 bytes"),
            ([*team, "ring:6", "--team", "red"], "two teams have the same name"),
        ):
            with self.subTest(" ".join(words)):
                status, _, errors = lab(*words)
                self.assertEqual(status, 2)
                self.assertIn(message, errors)
                self.assertFalse(pathlib.Path("contest").exists())
